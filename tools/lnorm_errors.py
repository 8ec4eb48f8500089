"""What tools/lnorm reports if there is no lowered grammar."""
import importlib.machinery
import importlib.util
import json
import os
import re

from faults import name_of
from notes import notes
from shown import plain, told
from wanted_shapes import tree_of

ROOT = os.path.dirname(os.path.dirname(os.path.realpath(__file__)))
DONE, REJECTED, NO_TREE, NO_MEMORY, NO_STREAM = range(5)
LINE_OF_FAULT = re.compile(r"(F[0-9]+[a-z]?) ([0-9]+)\.\.([0-9]+): (.*)", re.S)
MEMORY = "there was not enough memory for this grammar, or it has a pattern that is past the size that `regex` takes"


class Stop(Exception):
    """There is no lowered grammar: the exit status and the message, with a span of the text if that is known. `answer` is for `--json`."""

    def __init__(self, status, message, file, text=None, start=0, end=0, more={}):
        super().__init__(message)
        self.at, self.shows_lines, self.notes = (file, message, text, start, end), True, []
        self.answer = {"status": status, "file": file, "code": None, "name": None, "message": message,
                       "bytes": None, "start": None, "end": None}
        if text is not None:
            size = [len(text.text[:at].encode()) for at in (start, end)]
            self.answer.update(bytes=size, start=place(text, start), end=place(text, end))
        self.answer.update(more)

    def lines(self, is_coloured):
        """What is reported, as lines for people."""
        found = told(*self.at, is_on=is_coloured)
        found = found if self.shows_lines else found[:1]
        return found + [line for it in self.notes for line in it.lines(is_coloured)]

    def add_note(self, note):
        """A second span, as an error of its own whose message begins with `note`."""
        self.notes.append(note)
        self.answer.setdefault("notes", []).append({key: note.answer[key] for key in ("message", "bytes", "start", "end")})


class NoTree(Stop):
    """The input is no tree: where and why, for each of the places in it."""

    def __init__(self, name, places):
        super().__init__(NO_TREE, "no tree", name, more={"places": [{"at": at, "message": what} for at, what in places]})
        self.places = places

    def lines(self, is_coloured):
        name = self.answer["file"]
        return ["%s: no tree: %s: %s" % (name, at, plain(what)) for at, what in self.places] or super().lines(is_coloured)


def place(text, at):
    line, column = text.line_and_column(at)
    return {"line": line, "column": column}


# ---- the input is no tree

def places_in_tree(data):
    """Where the input is no tree, and why, as tools/schema says it."""
    path = os.path.join(ROOT, "tools", "schema")
    loader = importlib.machinery.SourceFileLoader("schema", path)
    schema = importlib.util.module_from_spec(importlib.util.spec_from_loader("schema", loader))
    loader.exec_module(schema)
    with open(schema.SCHEMA, encoding="utf-8") as file:
        found = schema.faults(json.load(file), data)
    return [(schema.schema_words.pointer(path), what) for path, what in found]


def no_tree(data, name, text):
    try:
        found = places_in_tree(data)
    except (OSError, RecursionError) as error:
        found = [("#", str(error))]
    if text is None:
        return NoTree(name, found)
    why = "; ".join(what for _, what in found) or "is none for this program"
    return Stop(NO_TREE, "the grammar can't be lowered: its tree " + why, name)


# ---- the grammar has a fault

def at_bytes(status, message, span, name, text, more):
    """A Stop at a span in bytes: in the text, or if that is not known, with the bytes in front of the message."""
    if text is None:
        return Stop(status, "bytes %d..%d: %s" % (span[0], span[1], message), name, more=more)
    start, end = (text.behind_bytes(it) for it in span)
    return Stop(status, message, name, text, start, max(start, end), more)


def fault(said, name, text, data, features):
    """The fault that the program named, at its span in the text, with its notes."""
    found = LINE_OF_FAULT.match(said)
    if not found:
        return Stop(NO_STREAM, "the program ended with status 1 and named no fault: " + said.strip(), name)
    code, message = found.group(1), found.group(4)[:-1] if found.group(4).endswith("\n") else found.group(4)
    span = [int(found.group(2)), int(found.group(3))]
    more = {"code": code, "name": name_of(code), "message": message, "bytes": span, "notes": []}
    stop = at_bytes(REJECTED, "%s: %s" % (code, message), span, name, text, more)
    stop.shows_lines = span != [0, 0]
    for words, where in notes(code, span, tree_of(data), set(features), text):
        stop.add_note(at_bytes(REJECTED, "note: " + words, where, name, text, {"message": words, "bytes": where}))
    return stop
