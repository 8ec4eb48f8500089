"""What tools/docs checks of faults: their names in docs/use/FAULTS.md, and which of them the README of a crate may name."""
import functools
import re

from docs_facts import read, read_once
from docs_text import CODE, cells

KINDS = "crates/lalrpop_norm_faults/src/kind.rt"
TABLE = "docs/use/FAULTS.md"
FAULTS = "lalrpop_norm_faults"
NAMED = re.compile(r"\bF(\d+)([a-f]?)\b(?: ?(?:to|\.\.|-|–) ?F(\d+)([a-f]?)\b)?")


@functools.cache
def codes():
    """The code of each variant of `FaultKind`, as the function `code` has it."""
    return dict(re.findall(r'FaultKind::(\w+) => "(F\w+)"', read_once(KINDS)))


def names(_, document, __):
    """Each row of the tables of faults has the name that its code has in the program, and no fault is left out."""
    if document.path != TABLE:
        return
    told = set()
    for number, line in enumerate(document.text.split("\n"), 1):
        row = cells(line) if line.startswith("|") else []
        if len(row) > 2 and re.fullmatch(r"F\d+[a-f]?", row[0]):
            told.add(row[0])
            if codes().get(row[1].strip("`")) != row[0]:
                yield number, "%s is not %s in %s" % (row[0], row[1], KINDS)
    for name, code in sorted(codes().items()):
        if code not in told:
            yield 1, "%s, `%s`, has no row" % (code, name)


@functools.cache
def own_codes(facts, crate):
    """The codes of the faults that the code of a crate names."""
    texts = [read_once(path) for path in facts.files_of(crate, (".rt",)) if "/src/" in path]
    return {codes()[name] for text in texts for name in re.findall(r"FaultKind::(\w+)", text) if name in codes()}


@functools.cache
def libraries():
    """The libraries that each crate names in crates.txt."""
    lines = [line.partition(":") for line in read("crates.txt").split("\n") if line.strip() and not line.startswith("#")]
    return {name.split()[0]: below.split() for name, _, below in lines}


@functools.cache
def made_by(facts, crate):
    """The codes of the faults that a crate makes: it, a crate below it, or one that calls it."""
    below, left = {crate}, [crate]
    while left:
        new = set(libraries().get(left.pop(), ())) - below
        below |= new
        left += new
    above = {name for name, named in libraries().items() if crate in named}
    return set().union(*(own_codes(facts, name) for name in (below | above) - {FAULTS}))


def within(code, first, last):
    """Whether a code lies in a range; F12 means all from F12a to F12f."""
    number, letter = re.fullmatch(r"F(\d+)([a-f]?)", code).groups()
    return (int(first[0]), first[1]) <= (int(number), letter) <= (int(last[0]), last[1] or "z")


def ranges(facts, document, _):
    """The faults that the README of a crate names are made by it, below it or by a crate that calls it: each end of a range, and all between."""
    crate = document.path.split("/")[1] if document.path.startswith("crates/") else None
    if crate is None or crate in (FAULTS, "lalrpop_norm_model", "lalrpop_norm_theory"):
        return
    for number, line in document.lines:
        for match in NAMED.finditer(CODE.sub(" ", line)):
            first = match.group(1), match.group(2)
            last = (match.group(3), match.group(4)) if match.group(3) else first
            meant = [code for code in codes().values() if within(code, first, last)]
            other = [code for code in meant if code not in made_by(facts, crate)]
            if not meant or other:
                yield number, "%s: neither %s nor a crate near it makes %s" % (match.group(0), crate, ", ".join(other) or match.group(0))
