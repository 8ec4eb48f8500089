"""How many conflicts bison finds in the productions of a lowered grammar, before and after inlining; a part of tools/dropin.

A terminal is a token, that of `!` as well, and each start nonterminal stands behind a token of its own. The tables are those of the grammar's
`algorithm`: LALR(1) if it says so, else IELR(1), which has conflicts if and only if LR(1) has.
"""
import itertools
import json
import os
import re
import subprocess
import tempfile

CONFLICTS = re.compile(r"(\d+) (shift/reduce|reduce/reduce) conflicts?")


class Failed(Exception):
    """A program failed, or inlining leads back to a nonterminal: what it said."""


def lowered(program, tree):
    """The lowered grammar that lexplain prints of a tree in JSON."""
    ran = subprocess.run([program, "grammar", "-"], input=tree, stdout=subprocess.PIPE, stderr=subprocess.PIPE)
    if ran.returncode:
        raise Failed(ran.stderr.decode(errors="replace").strip() or "lexplain: exit status %d" % ran.returncode)
    return json.loads(ran.stdout)["grammar"]


def key_of(symbol):
    """A symbol as a word of its kind and its name: a nonterminal `error` and the terminal `Error` of `!` are two."""
    (kind, name), = symbol.items()
    return kind, json.dumps(name, sort_keys=True)


def rules_of(grammar):
    """Each nonterminal with the symbols of its productions."""
    return {key_of({"Nonterminal": name}): [tuple(map(key_of, it["symbols"])) for it in data["productions"]]
            for name, data in grammar["nonterminals"]}


def to_inline(grammar):
    return {key_of({"Nonterminal": name}) for name, data in grammar["nonterminals"] if any(it["id"] == "inline" for it in data["attributes"])}


def inlined(rules, inline):
    """The rules without the nonterminals of `inline`: each production that has one is written once for each of its productions."""
    made = {}

    def productions(name):
        if name not in made:
            made[name] = None
            made[name] = [long for short in rules[name] for long in written_out(short)]
        if made[name] is None:
            raise Failed("%s is inlined into itself" % name[1])
        return made[name]

    def written_out(symbols):
        choices = [productions(it) if it in inline else [(it,)] for it in symbols]
        return [tuple(itertools.chain(*choice)) for choice in itertools.product(*choices)]

    return {name: [long for short in of for long in written_out(short)] for name, of in rules.items() if name not in inline}


def text_for_bison(grammar, rules):
    """The productions as a grammar of bison, all names replaced by numbers."""
    numbers = {name: "n%d" % number for number, name in enumerate(rules)}
    numbers.update((key_of({"Terminal": it}), "T%d" % number) for number, it in enumerate(grammar["terminals"]["all"]))
    starts = [numbers[key_of({"Nonterminal": start})] for _, start in grammar["start_nonterminals"]]
    tokens = [name for name in numbers.values() if name[0] == "T"] + ["START%d" % number for number in range(len(starts))]
    lines = ["%define lr.type " + ("lalr" if grammar["algorithm"]["lalr"] else "ielr"), "%token " + " ".join(tokens), "%start start", "%%",
             "start: " + " | ".join("START%d %s" % it for it in enumerate(starts)) + ";"]
    for name, productions in rules.items():
        lines.append("%s: %s;" % (numbers[name], " | ".join(" ".join(numbers[it] for it in symbols) or "%empty" for symbols in productions)))
    return "\n".join(lines) + "\n"


def conflicts(text):
    """What bison counts in a grammar: the number of each kind."""
    with tempfile.TemporaryDirectory() as room:
        path = os.path.join(room, "grammar.y")
        with open(path, "w", encoding="ascii") as file:
            file.write(text)
        ran = subprocess.run(["bison", "-Wconflicts-sr", "-Wconflicts-rr", "-o", os.path.join(room, "grammar.c"), path],
                             stdout=subprocess.PIPE, stderr=subprocess.STDOUT, text=True, env={**os.environ, "LC_ALL": "C"})
    if ran.returncode:
        raise Failed(ran.stdout.strip() or "bison: exit status %d" % ran.returncode)
    found = {kind: int(number) for number, kind in CONFLICTS.findall(ran.stdout)}
    return found.get("shift/reduce", 0), found.get("reduce/reduce", 0)


def before_and_after(program, tree):
    """The conflicts of a tree's lowered grammar, before and after inlining, and how many nonterminals are inlined, of how many."""
    grammar = lowered(program, tree)
    rules, inline = rules_of(grammar), to_inline(grammar)
    return conflicts(text_for_bison(grammar, rules)), conflicts(text_for_bison(grammar, inlined(rules, inline))), (len(inline), len(rules))
