"""What a measured run of the gate has left in out/gate.jsonl, as rows of tables, and the table that docs/work/GATE.md has."""
import json
import os

ROOT = os.path.dirname(os.path.dirname(os.path.abspath(__file__)))
RECORD = os.path.join(ROOT, "out", "gate.jsonl")
PAGE = os.path.join(ROOT, "docs", "work", "GATE.md")
BEGIN, END = "<!-- tools/gate --record writes from here -->\n", "<!-- to here -->\n"
HEAD = ["Crate", "proof", "base", "edits", "runs", "all", "wall", "MB"]


def records():
    if not os.path.isfile(RECORD):
        return []
    with open(RECORD, encoding="utf-8") as file:
        return [json.loads(line) for line in file]


def note(record, said):
    """Adds a row, in one write: others add and read rows meanwhile."""
    with open(record, "ab", buffering=0) as file:
        file.write((json.dumps(said) + "\n").encode())


def standing(rows):
    """The rows of a run without those of mutants that have left the gate since, and how many these are."""
    in_gate = lambda crate, edit: os.path.exists(os.path.join(ROOT, "crates", crate, "must-fail", edit))
    gone = {(row["crate"], row["edit"]) for row in rows if row["edit"] and not in_gate(row["crate"], row["edit"])}
    bare = {crate for crate, _ in gone} - {row["crate"] for row in rows if row["edit"] and (row["crate"], row["edit"]) not in gone}
    return [row for row in rows if (row["crate"], row["edit"]) not in gone and not (row["kind"] == "base" and row["crate"] in bare)], len(gone)


def libraries():
    """The crates, and of each the repository's crates that it stands on, those of its libraries too."""
    with open(os.path.join(ROOT, "crates.txt"), encoding="utf-8") as file:
        lines = [line.split(":", 1) for line in file if line.strip() and not line.startswith("#")]
    named = {name.split()[0]: needs.split() for name, needs in lines}
    crates = {}
    for crate, needs in named.items():
        found = [need for need in needs if need in named]
        for need in found:
            found += [it for it in named[need] if it in named and it not in found]
        crates[crate] = found
    return crates


def total(rows, crate, *kinds):
    return sum(row["seconds"] for row in rows if row["crate"] == crate and row["kind"] in kinds)


def crate_row(rows, crate):
    mine = [row for row in rows if row["crate"] == crate]
    wall = sum(row["wall"] for row in mine if row["kind"] == "proof")
    cells = [total(rows, crate, *kinds) for kinds in (("proof", "tests"), ("base",), ("edits",), ("runs",))]
    return [crate, *[f"{cell:.0f}" for cell in cells], f"{sum(cells):.0f}", f"{wall:.0f}",
            f"{max((row['kilobytes'] for row in mine), default=0) / 1024:.0f}"]


def table(head, rows):
    print("| " + " | ".join(head) + " |")
    print("|" + "---|" * len(head))
    for row in rows:
        print("| " + " | ".join(row) + " |")
    print()


def chain(rows, crates):
    """The dearest way through the crates: a crate's own proof, and then its edits, come after the proofs of those below."""
    wall = {crate: sum(row["wall"] for row in rows if row["crate"] == crate and row["kind"] in ("proof", "tests")) for crate in crates}
    best = {}

    def way(crate):
        if crate not in best:
            below = max((way(need) for need in crates[crate]), key=lambda it: it[0], default=(0, []))
            best[crate] = (below[0] + wall[crate], [*below[1], crate])
        return best[crate]

    return max((way(crate) for crate in crates), key=lambda it: it[0], default=(0, []))


def functions_of(rows):
    """Each function that was timed, with its crate: the least of what it took."""
    found = {}
    for row in rows:
        for name, seconds in row["functions"]:
            key = row["crate"], name
            found[key] = min(seconds, found.get(key, seconds))
    return sorted(((seconds, *key) for key, seconds in found.items()), reverse=True)


def page():
    """What stands in docs/work/GATE.md of the last recorded run."""
    with open(PAGE, encoding="utf-8") as file:
        return file.read().partition(BEGIN)[2].partition(END)[0]


def recorded(column="all"):
    """The seconds of a column that each crate takes in the gate, by the table of docs/work/GATE.md."""
    rows = [[cell.strip() for cell in line.strip("|").split("|")] for line in page().splitlines() if line.startswith("|")]
    at = HEAD.index(column)
    return {row[0]: int(row[at]) for row in rows if len(row) == len(HEAD) and row[at].isdigit()}
