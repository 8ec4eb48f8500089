"""The small grammars of the tests of tools/conflicts: those of examples/ambiguous, of tools/conflicts_grammars.txt, and of
tools/conflicts_constructs.txt, which has longer ones, each of a construct of languages that is known to be ambiguous.

These files have in front of each grammar a line `== NAME LENGTH`: the length of the shortest sentence with two readings, or `none` if the grammar
is not ambiguous. LENGTH with a `b` behind it is that of bison's counterexample.
"""
import os
import re

TOOLS = os.path.dirname(os.path.realpath(__file__))
AMBIGUOUS = os.path.join(os.path.dirname(TOOLS), "examples", "ambiguous")
HEAD = re.compile(r"^== (\w+) (\w+)\n", re.M)
SMALL, CONSTRUCTS = "conflicts_grammars.txt", "conflicts_constructs.txt"


def grammars_of(file):
    """Of each grammar of a file its name, its length as above or None, and its text."""
    with open(os.path.join(TOOLS, file), encoding="utf-8") as opened:
        parts = HEAD.split(opened.read())[1:]
    return [(name, None if length == "none" else length, text) for name, length, text in zip(parts[::3], parts[1::3], parts[2::3])]


def small_grammars():
    """Likewise of those of examples/ambiguous, which have the length "", and of the small ones."""
    found = []
    for name in sorted(os.listdir(AMBIGUOUS)):
        if name.endswith(".lalrpop"):
            with open(os.path.join(AMBIGUOUS, name), encoding="utf-8") as file:
                found.append((name.rpartition(".")[0], "", file.read()))
    return found + grammars_of(SMALL)
