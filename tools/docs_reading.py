"""What tools/docs checks of docs/language/READING.md: the lines of each file, the productions of the worked trees; and what README shows."""
import glob
import itertools
import os
import re

from docs_facts import ROOT, read, read_once
from docs_text import CODE

PAGE = "docs/language/READING.md"
COUNTED = re.compile(r"(?<![\w`])([A-Z]\w+)(?: of (?:`\w+`|the \w+))? \((\d+)(?: lines)?\)")
PRINTED = re.compile(r"^    (\S.*?) = .*=> ActionFn\((\d+)\);")
STEP = re.compile(r"(\S+)\s+action (\d+)\s+\w+_pair\b(?:.*?\bproduction (\d+))?")


def counted_lines(text):
    """How many lines a file has, without blank ones and imports."""
    return sum(1 for line in text.split("\n") if line.strip() and not re.match(r"\s*(pub )?use ", line))


def definition_lines(text, name):
    """How many lines the definition of a name has: from its head to the next blank line or comment."""
    lines = text.split("\n")
    starts = [at for at, line in enumerate(lines) if re.match(r"\s*(?:abbrev |unfoldable )?(?:pub )?(?:data |record |mutual )*%s\b" % re.escape(name), line)]
    count = 0
    for line in lines[starts[0]:] if starts else ():
        if not line.strip() or line.strip().startswith("--"):
            break
        count += 1
    return count


def sizes(facts, name, hint, crates):
    """How many lines the files in specs/ may have that a name means; those of a crate that is named come alone."""
    paths = [path for path in facts.by_name.get(name + ".antt", ()) if "/specs/" in path]
    near = [path for path in paths if hint and path.split("/")[1].endswith(hint)] or [path for path in paths if path.split("/")[1] in crates] or paths
    return [(path, counted_lines(read_once(path))) for path in near]


def cell_sizes(facts, cell, crates):
    """The sums that the files of a table's cell may have: "Rounds, Met (theory)", "Laws, `OneToOne`" for one definition of a file."""
    hint = re.search(r"\((\w+)\)", cell)
    parts = [part.strip() for part in re.sub(r"\(\w+\)", "", cell).split(",")]
    if len(parts) == 2 and parts[1].startswith("`"):
        return {definition_lines(read_once(path), parts[1].strip("`")) for path, _ in sizes(facts, parts[0], None, crates)}
    found = [[count for _, count in sizes(facts, part, hint and hint.group(1), crates)] for part in parts]
    return {sum(counts) for counts in itertools.product(*found)} if all(found) else set()


def line_counts(facts, document, _):
    """The lines that READING counts, in the column "Lines" of a table and in brackets behind a file's name."""
    if document.path != PAGE:
        return
    crates = {}
    here = []
    for number, line in document.lines:
        if line.startswith("## "):
            here = [crate for crate in map(facts.crate_named, CODE.findall(line)) if crate]
        crates[number] = here
    for titles, rows in document.tables():
        if "Lines" not in titles:
            continue
        for number, row in rows:
            told, wanted = row[titles.index("Lines")], cell_sizes(facts, row[0], crates[number])
            if not told.isdigit() or int(told) not in wanted:
                yield number, "%s: %s lines, and there are %s" % (row[0], told, " or ".join(map(str, sorted(wanted))) or "no such files")
    for number, line in document.lines:
        for name, told in COUNTED.findall(line):
            wanted = {count for _, count in sizes(facts, name, None, ())}
            if wanted and int(told) not in wanted:
                yield number, "%s (%s), and it has %s lines" % (name, told, " or ".join(map(str, sorted(wanted))))


def productions(_, document, __):
    """In a worked tree each action belongs to the production that is named: the lines that `lnorm` prints stand above it."""
    number_of = {}
    for line in document.text.split("\n"):
        match = PRINTED.match(line)
        if match:
            name = match.group(1)
            number_of[name, match.group(2)] = sum(1 for other, _ in number_of if other == name)
    for number, line in enumerate(document.text.split("\n"), 1):
        match = STEP.search(line) if line.startswith("    ") and number_of else None
        if match:
            place = number_of.get((match.group(1), match.group(2)))
            if place is None:
                yield number, "no production of `%s` has the action %s above" % (match.group(1), match.group(2))
            elif match.group(3) and int(match.group(3)) != place:
                yield number, "production %s of `%s`, and action %s is that of production %d" % (match.group(3), match.group(1), match.group(2), place)


def shown(_, document, __):
    """What README shows of an answer stands in the file of that answer."""
    if document.path != "README.md":
        return
    answers = {line.strip() for path in glob.glob(os.path.join(ROOT, "examples", "*.expected")) for line in read(path).split("\n")}
    for number, line in enumerate(document.text.split("\n"), 1):
        if re.match(r"    \S.* => ActionFn\(\d+\);$", line) and line.strip() not in answers:
            yield number, "no answer in examples/ has this line"
