"""What tools/docs checks of the gate's table: prices, minutes and seconds."""
import functools
import importlib.machinery
import importlib.util
import os
import re

from docs_facts import ROOT, read
from docs_text import CODE

PAGE = "docs/work/GATE.md"
RECORDED = re.compile(r"<!-- tools/gate --record writes from here -->.*?<!-- to here -->", re.S)


@functools.cache
def gate():
    """The module of tools/gate."""
    loader = importlib.machinery.SourceFileLoader("gate", os.path.join(ROOT, "tools", "gate"))
    module = importlib.util.module_from_spec(importlib.util.spec_from_loader("gate", loader))
    loader.exec_module(module)
    return module


def prices(facts, document, _):
    crates, seconds = gate().libraries(), gate().recorded()
    for number, line in document.lines:
        for match in re.finditer(r"((?:`\w+`, )*`\w+`) and above: (\d+) crates, ([\d,]+) seconds", line):
            named = {facts.crate_named(name) for name in CODE.findall(match.group(1))}
            anew = [crate for crate in crates if crate in named or named & set(crates[crate])]
            told = "%d crates, %s seconds" % (len(anew), format(round(sum(seconds.get(crate, 0) for crate in anew), -1), ","))
            if not match.group(0).endswith(" above: " + told):
                yield number, "%s, and tools/gate reckons %s" % (match.group(0), told)


@functools.cache
def proof_seconds():
    """The seconds of each crate's own proof, by the table."""
    return {crate: int(seconds) for crate, seconds in re.findall(r"(?m)^\| (\w+) \| (\d+) \|", RECORDED.search(read(PAGE)).group(0))}


def build_minutes(facts, document, _):
    """The cost of the proof of a program: "`lnorm` and below: 38 crates, 42 minutes on two processors" is half of the proofs' seconds."""
    crates = gate().libraries()
    for number, line in document.lines:
        for name, count, minutes in re.findall(r"`(\w+)` and below: (\d+) crates, (\d+) minutes on two processors", line):
            crate = facts.crate_named(name)
            below = {crate, *crates.get(crate, ())} - {None}
            wanted = len(below), round(sum(proof_seconds().get(it, 0) for it in below) / 120)
            if (int(count), int(minutes)) != wanted:
                yield number, "`%s` and below are %d crates and %d minutes by the table of %s" % ((name, *wanted, PAGE))


def minutes(_, document, __):
    """Minutes and processor seconds of the whole gate are those of the table: in GATE.md outside of it, and behind "the whole gate" anywhere."""
    table = RECORDED.search(read(PAGE)).group(0)
    whole = set(re.findall(r"(\d+) minutes", table)), {value.replace(",", "") for value in re.findall(r"(\d+) processor seconds", table)}
    inside = False
    for number, line in document.lines:
        inside = "tools/gate --record writes from here" in line or inside and "<!-- to here" not in line
        if inside or not (document.path == PAGE or re.search(r"(?i)\bthe whole gate\b", line)):
            continue
        for found, known, what in ((re.findall(r"(?<!crates, )\b(\d+) minutes", line), whole[0], "minutes"),
                                   (re.findall(r"\b(\d[\d,]*) processor seconds", line), whole[1], "processor seconds")):
            for value in found:
                if value.replace(",", "") not in known:
                    yield number, "%s %s, and the table has %s" % (value, what, " and ".join(sorted(known)))
