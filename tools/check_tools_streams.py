"""Runs of the program lexplain by a shell, for its exit statuses and its streams; a part of tools/check_tools.

A row of RUNS has a name, the command, the exit status, standard output and standard error, as docs/use/FORMATS.md has them. `$lexplain` is
the program. The command is run in a folder with the files of `files`: the tree of examples/sums.json, trees of that grammar, the tree of a
grammar with a fault, that of a grammar whose types nest deep, and what is no tree. WRITTEN and DERIVATION stand for the content of these
files.
"""
import functools
import json
import os
import subprocess
import tempfile

from tree_rules import read
from wanted import USAGE

EXAMPLES = os.path.join(os.path.dirname(os.path.dirname(os.path.realpath(__file__))), "examples")
SECONDS = 60
SHELL = "/bin/sh"
UNREAD = "lexplain: input or output failed\n"
NO_GRAMMAR = "lexplain: the file is no tree of a grammar\n"
NO_LINES = "lexplain: the lines are no tree\n"
NO_WORDS = "lexplain: usage: %s\n" % USAGE["lexplain"]
# A grammar whose rules have no types and two alternatives, each around the rule before; behind them a rule with two types.
DEEP = "grammar; R0 = \"a\"; %s pub Z = { \"a\" \"a\", \"a\" };\n" % " ".join(
    'R%d = { R%d "b", R%d "c" };' % (i + 1, i, i) for i in range(2000))
OTHER_TYPE = ("F50 %d..%d: this alternative gives `&'input str`, and `Z` has the type `(&'input str, &'input str)`: make them agree, or declare "
              "the type of `Z` and give each alternative code\n" % (DEEP.rindex('"a"'), DEEP.rindex('"a"') + len('"a"')))
FAULT = "F27 17..24: `Missing` is not declared: add a rule or a terminal of this name, or correct the name\n"
RUNS = (
    # The exit status 0.
    ("explain", '"$lexplain" explain grammar < derivation', 0, "WRITTEN", ""),
    ("lower", '"$lexplain" lower grammar < written', 0, "DERIVATION", ""),
    ("options", '"$lexplain" explain grammar --limit 5 --feature f --limit +7 < derivation', 0, "WRITTEN", ""),
    ("lines without the last line feed", 'head -c -1 derivation | "$lexplain" explain grammar', 0, "WRITTEN", ""),
    ("a pipe", '"$lexplain" explain grammar < derivation | "$lexplain" lower grammar', 0, "DERIVATION", ""),

    # The exit status 1: the grammar or a tree has a fault, or two trees show no ambiguity.
    ("a grammar with a fault", '"$lexplain" explain fault < derivation', 1, "", FAULT),
    ("a grammar with a fault, whole", '"$lexplain" grammar fault', 1, "", FAULT),
    ("another root", '"$lexplain" explain grammar < leaf', 1, "", "X1 /\n"),
    ("another root, written", '"$lexplain" lower grammar < leaf', 1, "", "X1 /\n"),
    ("a production past the last one", '"$lexplain" explain grammar < past', 1, "", "X2 /\n"),
    ("a child that is none", '"$lexplain" explain grammar < childless', 1, "", "X3 /\n"),
    ("an alternative past the last one", '"$lexplain" lower grammar < written_past', 1, "", "X4 /\n"),
    ("of two the first has a fault", 'cat past derivation | "$lexplain" ambiguous grammar', 1, "", "first X2 /\n"),
    ("of two the second has a fault", 'cat derivation childless | "$lexplain" ambiguous grammar', 1, "", "second X3 /\n"),
    ("one tree twice", 'cat derivation derivation | "$lexplain" ambiguous grammar', 1, "", "X7\n"),

    # Types that nest deeper than this stack could hold level by level are compared and dropped.
    ("a fault behind types that nest deep", 'ulimit -s 256; "$lexplain" grammar deep', 1, "", OTHER_TYPE),

    # The exit status 2: the arguments are wrong.
    ("no argument", '"$lexplain" < derivation', 2, "", NO_WORDS),
    ("no grammar", '"$lexplain" explain < derivation', 2, "", NO_WORDS),
    ("no way", '"$lexplain" grammar < derivation', 2, "", NO_WORDS),
    ("another way", '"$lexplain" raise grammar < derivation', 2, "", NO_WORDS),
    ("an option of another way", '"$lexplain" explain grammar --origins < derivation', 2, "", NO_WORDS),
    ("an option without its value", '"$lexplain" lower grammar --limit < written', 2, "", NO_WORDS),
    ("a limit past the largest", '"$lexplain" ambiguous grammar --limit 65536 < derivation', 2, "", NO_WORDS),
    ("a limit past the largest, whole", '"$lexplain" grammar grammar --limit 65536', 2, "", NO_WORDS),
    ("a word that is not UTF-8", '"$lexplain" explain grammar --feature "$(printf "\\377")" < derivation', 2, "", NO_WORDS),
    ("a name that is not UTF-8", '"$lexplain" explain "$(printf "\\377")" < derivation', 2, "", NO_WORDS),
    ("wrong arguments, and no such file", '"$lexplain" explain missing --origins < derivation', 2, "", NO_WORDS),

    # The exit status 2: what is read is no tree.
    ("a grammar that is no tree", '"$lexplain" explain derivation < derivation', 2, "", NO_GRAMMAR),
    ("a grammar that is no tree, whole", '"$lexplain" grammar derivation', 2, "", NO_GRAMMAR),
    ("an empty grammar", '"$lexplain" lower empty < written', 2, "", NO_GRAMMAR),
    ("a grammar that is not UTF-8", '"$lexplain" explain not_utf8 < derivation', 2, "", NO_GRAMMAR),
    ("a grammar that is not UTF-8, of two trees", '"$lexplain" ambiguous not_utf8 < derivation', 2, "", NO_GRAMMAR),
    ("a grammar that is not UTF-8, whole", '"$lexplain" grammar not_utf8', 2, "", NO_GRAMMAR),
    ("a grammar and lines that are not UTF-8", '"$lexplain" explain not_utf8 < not_utf8', 2, "", NO_GRAMMAR),
    ("no lines", '"$lexplain" explain grammar < empty', 2, "", NO_LINES),
    ("no lines from a pipe", ': | "$lexplain" lower grammar', 2, "", NO_LINES),
    ("no lines from nothing", '"$lexplain" ambiguous grammar < /dev/null', 2, "", NO_LINES),
    ("lines that are not UTF-8", '"$lexplain" explain grammar < not_utf8', 2, "", NO_LINES),
    ("written lines that are not UTF-8", '"$lexplain" lower grammar < not_utf8', 2, "", NO_LINES),
    ("a last line that is not UTF-8", 'cat derivation not_utf8 | "$lexplain" ambiguous grammar', 2, "", NO_LINES),
    ("an empty line", '"$lexplain" explain grammar < with_an_empty_line', 2, "", NO_LINES),
    ("an empty line alone", 'echo | "$lexplain" explain grammar', 2, "", NO_LINES),
    ("a text that is no JSON", 'echo Sum | "$lexplain" explain grammar', 2, "", NO_LINES),
    ("the grammar as lines", '"$lexplain" explain grammar < grammar', 2, "", NO_LINES),
    ("two trees for one", 'cat derivation derivation | "$lexplain" explain grammar', 2, "", NO_LINES),
    ("two written trees for one", 'cat written written | "$lexplain" lower grammar', 2, "", NO_LINES),
    ("one tree for two", '"$lexplain" ambiguous grammar < derivation', 2, "", NO_LINES),
    ("three trees for two", 'cat derivation derivation derivation | "$lexplain" ambiguous grammar', 2, "", NO_LINES),
    ("a written tree for a derivation tree", '"$lexplain" explain grammar < written', 2, "", NO_LINES),
    ("a derivation tree for a written tree", '"$lexplain" lower grammar < derivation', 2, "", NO_LINES),
    ("no lines, and a grammar with a fault", '"$lexplain" explain fault < empty', 2, "", NO_LINES),

    # The exit status 4: a file or a stream fails.
    ("no such file", '"$lexplain" explain missing < derivation', 4, "", UNREAD),
    ("no such file, and no lines", '"$lexplain" lower missing < /dev/null', 4, "", UNREAD),
    ("no such file, whole", '"$lexplain" grammar missing', 4, "", UNREAD),
    ("a folder", '"$lexplain" explain . < derivation', 4, "", UNREAD),
    ("a folder, whole", '"$lexplain" grammar .', 4, "", UNREAD),
    ("a folder for the lines", '"$lexplain" explain grammar < .', 4, "", UNREAD),
    ("a folder for the lines of a grammar that is no tree", '"$lexplain" explain empty < .', 4, "", UNREAD),
    ("a folder on standard input, whole", '"$lexplain" grammar - < .', 4, "", UNREAD),
    # (the system gives the file the number of standard input, and its end is read there: that is no tree)
    ("standard input closed", '"$lexplain" explain grammar <&-', 2, "", NO_LINES),
    ("standard input closed, and no such file", '"$lexplain" lower missing <&-', 4, "", UNREAD),
    ("standard input closed, whole", '"$lexplain" grammar - <&-', 4, "", UNREAD),
    ("a full device", '"$lexplain" explain grammar < derivation > /dev/full', 4, "", UNREAD),
    ("a full device, from a written tree", '"$lexplain" lower grammar < written > /dev/full', 4, "", UNREAD),
    ("a full device, whole", '"$lexplain" grammar grammar > /dev/full', 4, "", UNREAD),
    ("standard output closed", '"$lexplain" explain grammar < derivation >&-', 4, "", UNREAD),
    ("a fault, and standard output closed", '"$lexplain" explain grammar < past >&-', 1, "", "X2 /\n"),

    # The exit status stays if its line can't be written.
    ("right, and standard error closed", '"$lexplain" explain grammar < derivation 2>&-', 0, "WRITTEN", ""),
    ("a fault of the grammar, and standard error closed", '"$lexplain" explain fault < derivation 2>&-', 1, "", ""),
    ("a fault of the grammar, whole, and standard error closed", '"$lexplain" grammar fault 2>&-', 1, "", ""),
    ("a fault, and standard error closed", '"$lexplain" explain grammar < past 2>&-', 1, "", ""),
    ("a fault, and standard error full", '"$lexplain" lower grammar < written_past 2> /dev/full', 1, "", ""),
    ("no ambiguity, and standard error closed", 'cat derivation derivation | "$lexplain" ambiguous grammar 2>&-', 1, "", ""),
    ("no ambiguity, and standard error full", 'cat past derivation | "$lexplain" ambiguous grammar 2> /dev/full', 1, "", ""),
    ("wrong arguments, and standard error closed", '"$lexplain" < derivation 2>&-', 2, "", ""),
    ("wrong arguments, and standard error full", '"$lexplain" < derivation 2> /dev/full', 2, "", ""),
    ("a grammar that is no tree, and standard error closed", '"$lexplain" explain empty < derivation 2>&-', 2, "", ""),
    ("no lines, and standard error closed", '"$lexplain" explain grammar < empty 2>&-', 2, "", ""),
    ("no lines, and standard error full", '"$lexplain" explain grammar < empty 2> /dev/full', 2, "", ""),
    ("no such file, and standard error closed", '"$lexplain" explain missing < derivation 2>&-', 4, "", ""),
    ("a full device, and standard error full", '"$lexplain" explain grammar < derivation > /dev/full 2> /dev/full', 4, "", ""),
)


def bytes_of(name):
    with open(os.path.join(EXAMPLES, name), "rb") as file:
        return file.read()


@functools.cache
def files():
    """The files of the folder, by their names."""
    derivation, written = bytes_of("sums.derivation.jsonl"), bytes_of("sums.written.jsonl")
    node = b'{"Node":{"nonterminal":"Sums","production":%d,"children":0}}\n'
    return {
        "grammar": bytes_of("sums.json"), "derivation": derivation, "written": written, "empty": b"", "not_utf8": b"\xff\n",
        "fault": json.dumps(read("grammar; pub S = Missing;\n")).encode(), "deep": json.dumps(read(DEEP)).encode(),
        "with_an_empty_line": derivation.replace(b"\n", b"\n\n", 1), "leaf": b'{"Leaf":"Error"}\n', "past": node % 70, "childless": node % 0,
        "written_past": b'{"Node":{"rule":"Sums","alternative":70,"children":0}}\n',
    }


def answer(command, program):
    """What a command of RUNS answers: the two streams and the exit status, each as bytes."""
    with tempfile.TemporaryDirectory(prefix="check_tools-") as room:
        for name, data in files().items():
            with open(os.path.join(room, name), "wb") as file:
                file.write(data)
        ran = subprocess.run([SHELL, "-c", command], cwd=room, env={**os.environ, "lexplain": program}, timeout=SECONDS,
                             stdin=subprocess.DEVNULL, stdout=subprocess.PIPE, stderr=subprocess.PIPE)
    return {"stdout": ran.stdout, "stderr": ran.stderr, "status": b"%d\n" % ran.returncode}


def runs():
    """Each run: its name, the command, and what is expected, as `answer` has it."""
    texts = files()
    for name, command, status, told, said in RUNS:
        told = texts[told.lower()] if told else b""
        yield name, command, {"stdout": told, "stderr": said.encode(), "status": b"%d\n" % status}
