"""The counterexamples of bison, of the conflicts that it finds in its tables; a part of tools/conflicts.

bison gets the inlined grammar with other names: nonterminals n0, n1, .., terminals t0, t1, ... With YYFLAT=1 it prints each derivation of a
counterexample on one line, with brackets. The brackets are not always a derivation of the grammar. Therefore only the nonterminal at the
root and the leaves are read, and the trees are made from these: by conflicts_sentence.py.

It runs beside the own search. Of more than one start symbol each stands behind a token of its own. The tables are LALR(1) if the grammar
says so, else IELR(1).
"""
import os
import queue
import re
import shutil
import subprocess
import tempfile
import threading
import time

from conflicts_grammar import is_nonterminal, reachable

PART = re.compile(r"[^\s\[\]]+|[\[\]]")
IS_CONFLICT = re.compile(rb"conflicts? on token|[0-9]+ \S+/reduce conflict")
EMPTY = ("%empty", "ε", "•")


def is_there():
    return shutil.which("bison") is not None


class Names:
    """The names that symbols have for bison."""

    def __init__(self):
        self.symbols, self.names = [], {}

    def of(self, symbol):
        if symbol not in self.names:
            self.names[symbol] = "%s%d" % (symbol[0], len(self.symbols))
            self.symbols.append(symbol)
        return self.names[symbol]

    def symbol(self, name):
        return self.symbols[int(name[1:])]


class Bison:
    """bison, run on the inlined rules, beside the own search; to be used by `with`. `has_conflicts` is None if it has not said it."""

    def __init__(self, rules, starts, is_lalr, seconds, seconds_of_one):
        self.starts, self.names, self.has_conflicts = starts, Names(), None
        self.text, self.printed = self.text_of(rules, is_lalr), queue.SimpleQueue()
        self.seconds, self.seconds_of_one = seconds, seconds_of_one

    def __enter__(self):
        self.room, self.end = tempfile.TemporaryDirectory(), time.monotonic() + self.seconds
        path = os.path.join(self.room.name, "grammar.y")
        with open(path, "w", encoding="ascii") as file:
            file.write(self.text)
        env = {**os.environ, "YYFLAT": "1", "LC_ALL": "C.UTF-8", "TIME_LIMIT": "%g" % self.seconds_of_one}
        command = ["bison", "-Wcounterexamples", "-Wno-other", "-o", os.path.join(self.room.name, "grammar.c"), path]
        self.ran = subprocess.Popen(command, env=env, stdin=subprocess.DEVNULL, stdout=subprocess.DEVNULL, stderr=subprocess.PIPE)
        self.reader = threading.Thread(target=self.read, daemon=True)
        self.reader.start()
        return self

    def __exit__(self, *_):
        self.ran.kill()
        self.reader.join()
        self.ran.stderr.close()
        self.room.cleanup()

    def read(self):
        """Reads what bison prints, line by line; None is behind the last line. (It prints nothing if there is no conflict.)"""
        for line in self.ran.stderr:
            if IS_CONFLICT.search(line):
                self.has_conflicts = True
            self.printed.put(line.decode(errors="replace"))
        if self.ran.wait() == 0 and self.has_conflicts is None:
            self.has_conflicts = False
        self.printed.put(None)

    def text_of(self, rules, is_lalr):
        body, names = [], self.names
        for name in sorted(reachable(rules, self.starts)):
            rows = (" ".join(map(names.of, it.right)) or "%empty" for it in rules[name])
            body.append("%s: %s;" % (names.of(("n", name)), " | ".join(rows)))
        marks = ["z%d" % number for number in range(len(self.starts))] if len(self.starts) > 1 else [""]
        begin = " | ".join("%s %s" % (mark, names.of(("n", start))) for mark, start in zip(marks, self.starts))
        tokens = [names.of(it) for it in names.symbols if not is_nonterminal(it)] + [it for it in marks if it]
        head = ["%%define lr.type %s" % ("lalr" if is_lalr else "ielr")] + (["%token " + " ".join(tokens)] if tokens else [])
        return "\n".join(head + ["%start s0", "%%", "s0: %s;" % begin] + body) + "\n"

    def lines(self):
        """What bison prints, line by line, as long as it has time."""
        try:
            while True:
                line = self.printed.get(timeout=max(0, self.end - time.monotonic()))
                if line is None:
                    return
                yield line.rstrip()
        except queue.Empty:
            return

    def counterexamples(self):
        """The sentential forms of the counterexamples, as they are printed: a nonterminal, and symbols that are derived from it."""
        seen = set()
        for line in self.lines():
            _, is_one, derivation = line.partition("derivation ")
            if is_one and line.startswith("  "):
                found = self.form(derivation)
                if found is not None and found not in seen:
                    seen.add(found)
                    yield found

    def form(self, derivation):
        """The nonterminal at the root of a derivation, and its leaves; None if there is no start symbol."""
        parts = [it for it in PART.findall(derivation) if it not in EMPTY]
        leaves = [it for at, it in enumerate(parts) if it not in ("[", "]", "→") and parts[at + 1:at + 2] != ["→"]]
        root, leaves = parts[0], [it for it in leaves if it != "$end"]
        if root in ("$accept", "s0"):
            number = int(leaves.pop(0)[1:]) if leaves[:1] and leaves[0][0] == "z" else 0
            root = self.names.of(("n", self.starts[number]))
        if any(it[0] not in "nt" for it in leaves):
            return None
        return self.names.symbol(root)[1], tuple(map(self.names.symbol, leaves))
