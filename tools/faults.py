"""The faults by number and name, as the code has them; a part of tools/lnorm, tools/messages and tools/check_tools."""
import os
import re

ROOT = os.path.dirname(os.path.dirname(os.path.realpath(__file__)))
KINDS = os.path.join(ROOT, "crates", "lalrpop_norm_faults", "src", "kind.rt")


def numbers_by_name():
    """The number of each fault by its name, as {"NoDefinition": "F27"}; in the order of the code."""
    with open(KINDS, encoding="utf-8") as file:
        return dict(re.findall(r'FaultKind::(\w+) => "(F[0-9]+[a-z]?)"', file.read()))


def name_of(number):
    """The name of a fault, or None if the code is not there or has no fault of this number."""
    try:
        return {number: name for name, number in numbers_by_name().items()}.get(number)
    except OSError:
        return None
