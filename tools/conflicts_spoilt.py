"""Grammars that are spoilt by one change, so that most are ambiguous; a part of tools/conflicts_measure.

| Kind | The change |
|---|---|
| levels | a rule loses all its `precedence` and `assoc` |
| associativity | a level loses its `assoc` |
| separator | a `,` or `;` becomes optional |
| list twice | a list `X*` stands twice in a row |
"""
import re

from shown import Text
from tree_rules import read
from wanted_forms import one

ATTRIBUTES = re.compile(r"#\[(?:precedence|assoc)\([^\]]*\)\]\s*")
KINDS = ("levels", "associativity", "separator", "list twice")
SEPARATORS = (",", ";")


def spoilt(text):
    """Each spoilt grammar: the kind, the line of the change, and the text."""
    places, tree = Text(text), read(text)
    for item in tree["items"]:
        kind, rule = one(item)
        if kind == "Nonterminal" and rule["alternatives"]:
            yield from spoilt_levels(places, rule)
            for alternative in rule["alternatives"]:
                for symbol in alternative["expr"]["symbols"]:
                    yield from spoilt_symbol(places, symbol)


def changed(places, kind, start, end, words):
    text = places.text
    return kind, places.line_and_column(start)[0], text[:start] + words + text[end:]


def spoilt_levels(places, rule):
    start, end = (places.behind_bytes(it) for it in (rule["span"][0], rule["alternatives"][-1]["span"][1]))
    body = places.text[start:end]
    if ATTRIBUTES.search(body):
        yield changed(places, "levels", start, end, ATTRIBUTES.sub("", body))
    for found in ATTRIBUTES.finditer(body):
        if "assoc" in found.group():
            yield changed(places, "associativity", start + found.start(), start + found.end(), "")


def spoilt_symbol(places, symbol):
    start, end = map(places.behind_bytes, symbol["span"])
    kind, held = one(symbol["kind"]) if isinstance(symbol["kind"], dict) else (symbol["kind"], None)
    if kind == "Terminal" and any(held == {"Literal": {"Quoted": it}} for it in SEPARATORS):
        yield changed(places, "separator", end, end, "?")
    elif kind == "Repeat":
        if held["op"] == "Star":
            yield changed(places, "list twice", start, start, places.text[start:end] + " ")
        yield from spoilt_symbol(places, held["symbol"])
    elif kind == "Expr":
        for it in held["symbols"]:
            yield from spoilt_symbol(places, it)
    elif kind in ("Choose", "Name"):
        inner = held if kind == "Choose" else held[1]
        for change, line, text in spoilt_symbol(places, inner):
            if change == "list twice":
                # (the other list is not selected and has no name)
                words = places.text[slice(*map(places.behind_bytes, inner["span"]))]
                text = places.text[:start] + words + " " + places.text[start:]
            yield change, line, text


def chosen(texts, count):
    """So many spoilt grammars of these texts, by their names: in turn of each kind, and in turn of each text."""
    rows = [(name, *row) for name, text in texts.items() for row in spoilt(text)]
    queues = {(kind, name): [row for row in rows if row[:2] == (name, kind)] for kind in KINDS for name in texts}
    found = []
    while len(found) < count and any(queues.values()):
        for kind in KINDS:
            names = sorted((it for it in texts if queues[kind, it]), key=lambda it: sum(row[:2] == (it, kind) for row in found))
            if names and len(found) < count:
                found.append(queues[kind, names[0]].pop(0))
    return found
