"""The parser of a grammar in several ways, and what differs; a part of tools/dropin."""
import collections
import os
import re
import shutil
import subprocess

from dropin_patch import KEEP, LATER, LOWERED, NORMALIZER

VARIABLES = (KEEP, LATER, LOWERED, NORMALIZER)
FIRST_WAYS = ("alone", "as 0.23.1", "by lexplain")
SECONDS = 600
# LALRPOP's exit status; the parser's text, or else the message; the lowered grammar's text, if the program writes one.
Made = collections.namedtuple("Made", "status text lowered")


def made_in_ways(grammar, folder, programs, lexplain, ways=FIRST_WAYS):
    """What LALRPOP makes of a grammar in each way."""
    os.makedirs(folder, exist_ok=True)
    shutil.copy(grammar, os.path.join(folder, "grammar.lalrpop"))
    settings = {
        "alone": ("alone", {}),
        "as 0.23.1": ("patched", {LATER: "1"}),
        "by lexplain": ("patched", {NORMALIZER: lexplain, KEEP: os.path.join(folder, "by-lexplain")}),
        "self-built": ("self-built", {}),
    }
    return {way: made(programs[settings[way][0]], folder, way.replace(" ", "-"), settings[way][1]) for way in ways}


def made(program, folder, out, variables):
    environment = {name: value for name, value in os.environ.items() if name not in VARIABLES}
    parser, lowered = (os.path.join(folder, out, name) for name in ("grammar.rs", "lowered.txt"))
    for path in (parser, lowered):
        if os.path.exists(path):
            os.remove(path)
    os.makedirs(os.path.join(folder, out), exist_ok=True)
    command = [program, "--force", "--level", "quiet", "--out-dir", out, "grammar.lalrpop"]
    try:
        ran = subprocess.run(command, cwd=folder, timeout=SECONDS, stdout=subprocess.PIPE, stderr=subprocess.STDOUT,
                             env={**environment, LOWERED: lowered, **variables})
    except subprocess.TimeoutExpired:
        return Made(1, b"not done after %d seconds" % SECONDS, b"")
    is_made = ran.returncode == 0 and os.path.isfile(parser)
    return Made(0 if is_made else ran.returncode or 1, bytes_of(parser) if is_made else ran.stdout, bytes_of(lowered))


def bytes_of(path):
    if not os.path.isfile(path):
        return b""
    with open(path, "rb") as file:
        return file.read()


def first_line(message):
    """What an error says, without the place in the text."""
    lines = message.decode(errors="replace").strip().split("\n")
    line = next((it for it in lines if "error" in it or "panicked" in it), lines[0])
    return re.sub(r"^\S*:\d+:\d+: \S+ error: ", "", line)


def cell(own, other):
    """How the parser of LALRPOP by itself compares with that by lexplain, and whether it passes: None if nothing was compared."""
    if own.status:
        return "rejected: " + first_line(own.text), None
    if other.status:
        return "rejected by lexplain: " + first_line(other.text), False
    return ("same", True) if own.text == other.text else ("differs", False)


def compared(made_of):
    """The rows of the table, and how many of the comparisons that are to pass did, and did not."""
    rows, verdicts = [], []
    for name, ways in made_of.items():
        alone, _ = cell(ways["alone"], ways["by lexplain"])
        later, is_same = cell(ways["as 0.23.1"], ways["by lexplain"])
        is_lowered = None if is_same is None else ways["as 0.23.1"].lowered == ways["by lexplain"].lowered
        is_self = ways["alone"][:2] == ways["self-built"][:2]
        rows.append((name, alone, later, *("" if it is None else "same" if it else "differs" for it in (is_lowered, is_self))))
        verdicts += [it for it in (is_same, is_lowered, is_self) if it is not None]
    return rows, verdicts.count(True), verdicts.count(False)
