"""The readings of a sentence: the written trees that two derivation trees of the lowered grammar stand for, and the check of such a pair.

A pair is checked by the proved program, `lexplain ambiguous`. What it answers is compared with the trees that are made here, which say
more: of a macro with which arguments, of a list of which repeat or group. Nothing is shown of a pair that it rejects.
"""
import json
import os
import tempfile
from collections import namedtuple

import lnorm_program
from conflicts_grammar import LEAF, NODE

# A tree of the written grammar. `kind` is one of LEAF, NODE, LIST and NOTHING. `what` is the terminal of a leaf and the rule of a node,
# `number` the node's alternative; `name` is that of the nonterminal of the lowered grammar that a node or list was read from.
Part = namedtuple("Part", "kind what number parts name")
LIST, NOTHING = "list", "nothing"
DONE, REJECTED = 0, 1


class Rejected(Exception):
    """The program rejects a pair: its line."""


class NoCheck(Exception):
    """The program gave no answer: its exit status and what it said."""


# ---- the written tree of a derivation tree

def written(grammar, tree):
    if tree[0] == LEAF:
        return Part(LEAF, tree[1], 0, (), None)
    _, name, index, children = tree
    return made_by(grammar.table[name][index][1], name, tuple(written(grammar, child) for child in children))


def made_by(origin, name, parts):
    """The written tree of a production with this origin."""
    if isinstance(origin, dict):
        (_, of), = origin.items()
        return Part(NODE, of["rule"], of["alternative"], parts, name)
    if origin in ("Start", "LevelStep"):
        return parts[0]
    if origin in ("Lookahead", "Lookbehind"):
        return Part(NOTHING, None, 0, (), name)
    if origin == "StarSome":
        return parts[0]._replace(name=name)
    return Part(LIST, None, 0, parts[0].parts + parts[1:] if origin == "PlusMore" else parts, name)


def sentence(part):
    """The terminals of a written tree."""
    return [part.what] if part.kind == LEAF else [it for child in part.parts for it in sentence(child)]


def below(part, path):
    for at in path:
        part = part.parts[at]
    return part


def parts_with_starts(part, start, found):
    """Adds each part of a tree with where its sentence begins; returns where this one ends."""
    found.append((start, part))
    if part.kind == LEAF:
        return start + 1
    for child in part.parts:
        start = parts_with_starts(child, start, found)
    return start


# ---- lines of trees, as in docs/use/FORMATS.md

def lines_of_derivation(tree, lines):
    if tree[0] == LEAF:
        lines.append({"Leaf": json.loads(tree[1])})
        return lines
    for child in tree[3]:
        lines_of_derivation(child, lines)
    lines.append({"Node": {"nonterminal": tree[1], "production": tree[2], "children": len(tree[3])}})
    return lines


def lines_of_written(part, lines):
    for child in part.parts:
        lines_of_written(child, lines)
    if part.kind == LEAF:
        lines.append({"Leaf": json.loads(part.what)})
    elif part.kind == NODE:
        lines.append({"Node": {"rule": part.what, "alternative": part.number, "children": len(part.parts)}})
    else:
        lines.append({"List": len(part.parts)} if part.kind == LIST else "Nothing")
    return lines


def text_of(lines):
    return "".join(json.dumps(line, ensure_ascii=False, separators=(",", ":")) + "\n" for line in lines).encode()


class Check:
    """The check of pairs by the program at a path, for the tree of a grammar in JSON; to be used by `with`."""

    def __init__(self, grammar, program, tree, given):
        self.grammar, self.program, self.tree, self.given = grammar, program, tree, given

    def __enter__(self):
        self.room = tempfile.TemporaryDirectory()
        self.file = os.path.join(self.room.name, "grammar.json")
        with open(self.file, "wb") as file:
            file.write(self.tree)
        return self

    def __exit__(self, *_):
        self.room.cleanup()

    def readings(self, pair):
        """The two written trees of a pair, and the path to the smallest difference."""
        derivations = [line for tree in pair for line in lines_of_derivation(tree, [])]
        status, out, said = lnorm_program.run(self.program, ["ambiguous", self.file] + self.given, text_of(derivations))
        if status == REJECTED:
            raise Rejected(said.strip())
        if status != DONE:
            raise NoCheck(status, said.strip())
        both = tuple(written(self.grammar, tree) for tree in pair)
        answered = [json.loads(line) for line in out.decode().splitlines()]
        if not answered or answered[:-1] != [line for part in both for line in lines_of_written(part, [])]:
            raise Rejected("the program reads other trees than the search")
        return both, answered[-1]["Differ"]
