"""What tools/docs checks of counts: mutants, test cases, crates, prices, and what the README says of the whole."""
import re

from docs_facts import EDITS, read, read_once
from docs_text import CODE, NUMBER, value_of


def without_build(kit):
    """A kit's line without the letter of its build, in which machines differ."""
    return re.sub(r"(rattle-kit-\d+)[a-z]\b", r"\1", kit)


def counts(facts, document, _):
    crate = document.path.split("/")[1] if document.path.startswith("crates/") else None
    of_all = crate in (None, "cases")
    for number, line in document.lines:
        plain = line.replace("**", "")

        def differ(pattern, wanted, what):
            for match in re.finditer(pattern, plain):
                if value_of(match.group(1)) != wanted:
                    yield number, "%s, and there are %d %s" % (match.group(0).strip(), wanted, what)

        if of_all:
            yield from differ(r"\b(\d[\d,]*) (?:mutants|mutation tests)\b", facts.edits_of_all("must-fail"), "edits in must-fail/")
            yield from differ(r"\b(\d[\d,]*) further (?:mutants|edits)\b", facts.edits_of_all(*EDITS[1:]), "in further-edits/ and wrong-definitions/")
            yield from differ(r"\b(\d[\d,]{3,}) (?:test cases|lines over)\b", facts.run_count, "lines of crates/cases/stdin that ask")
            yield from differ(r"\b(\d[\d,]{3,}) trees\b", len(facts.trees), "trees in crates/cases/data")
            yield from differ(r"\b(?:all|the|its|in|of) ([2-9]\d|\d{3,}) crates\b", len(facts.crates), "crates in crates.txt")
        if crate:
            for folder in EDITS:
                yield from differ(r"`%s/`(?: of it)? has %s\b" % (folder, NUMBER), facts.edit_count(crate, folder), "in %s/" % folder)
        for match in re.finditer(r"\bF1 ?(?:to|\.\.|-|–) ?F(\d+)", plain):
            greatest = max(map(int, re.findall(r'=> "F(\d+)', read_once("crates/lalrpop_norm_faults/src/kind.rt"))))
            if int(match.group(1)) != greatest and int(match.group(1)) > 40:
                yield number, "%s, and the greatest fault is F%d" % (match.group(0), greatest)
        kit = re.search(r"rattle-kit-\w+(?: logic \w+)?", line)
        if kit and facts.kit_line and not without_build(facts.kit_line).startswith(without_build(kit.group(0))):
            yield number, "%s, and `rt version` says %s" % (kit.group(0), facts.kit_line)


def edit_names(facts, document, _):
    """The mutants that a crate's README names: in a list below a heading that speaks of mutants, and behind "`must-fail/` has 7 mutants:".
    If it names one of those that the gate tries, it names them all."""
    crate = document.path.split("/")[1] if document.path.startswith("crates/") else None
    if not crate:
        return
    names = set().union(*(facts.edits.get((crate, folder), set()) for folder in EDITS))
    listing, told = False, set()
    for number, line in document.lines:
        if line.startswith("#"):
            listing = re.search(r"(?i)mutant|edits", line) is not None
        entry = re.match(r"- ((?:`\w+`(?:, | and )?)+):", line)
        found = CODE.findall(entry.group(1)) if listing and entry else []
        behind = re.search(r"`must-fail/` has [^.;`]*(?:mutant|edit)s?\b[^.:`]*:(.*?)(?=`(?:further-edits|wrong-definitions)/`|$)", line)
        if behind:
            told_here = [word for word in CODE.findall(re.sub(r"\([^)]*\)", "", behind.group(1))) if re.fullmatch(r"[a-z0-9]+(_[a-z0-9]+)+", word)]
            found += [word for word in told_here if word not in facts.crates]
        for name in found:
            told.add(name)
            if name not in names:
                yield number, "`%s` is no mutant of %s" % (name, crate)
    gate = facts.edits.get((crate, "must-fail"), set())
    for name in sorted(gate - told if gate & told else ()):
        yield 1, "the mutant `%s` in must-fail/ is not named" % name


def crate_tables(facts, document, _):
    """GATE.md is left out: its table has the crates of the day on which it was measured."""
    if document.path == "docs/work/GATE.md":
        return
    found, first, header = set(), None, ("Crate", "Crates")
    for titles, rows in document.tables():
        if titles and titles[0] in header:
            first = first or rows[0][0]
            for _, row in rows:
                found.update(crate for crate in map(facts.crate_named, re.findall(r"[\w]+", re.sub(r"\([^)]*\)", "", row[0]))) if crate)
    if first and len(found) * 2 > len(facts.crates):
        for crate in facts.crates:
            if crate not in found:
                yield first, "the tables of crates have no %s" % crate


def readmes(facts):
    for crate in facts.crates:
        path = "crates/%s/README.md" % crate
        if path not in facts.files:
            yield path, 1, "there is no README"
        elif read(path).split("\n")[0] != "# " + crate:
            yield path, 1, "a README begins with the name of its crate: \"# %s\"" % crate


def test_command(_):
    """.ci/run calls what the README says for all tests."""
    called = re.findall(r"(?m)^exec (.+)$", read(".ci/run"))
    if not called or not re.search(r"(?m)^    %s$" % re.escape(called[-1]), read("README.md")):
        yield ".ci/run", 1, "it is to call the README's command for all tests, and ends with `%s`" % " ".join(called[-1:])


def trusted(facts):
    """The libraries of the toolchain that the README trusts are those that crates.txt names."""
    lines = [line.partition("#")[0].partition(":") for line in read("crates.txt").split("\n")]
    used = {library for _, _, libraries in lines for library in libraries.split()} - set(facts.crates)
    for number, line in enumerate(read("README.md").split("\n"), 1):
        if line.startswith("- The statements of the ported crates that are used, "):
            told = set(CODE.findall(line))
            for library in sorted(used - told):
                yield "README.md", number, "`%s` is used, and is not among what is trusted" % library
            for library in sorted(told - used):
                yield "README.md", number, "no crate uses `%s`" % library
