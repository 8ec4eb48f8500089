"""The form of a whole lowered grammar, read from its definitions in specs; a part of tools/schema.

A definition is read from `whole_form` on, with those that it uses. Each of its right sides is an expression of a few functions, such as
`fields`, `variant` or `list_form`; its left side is not looked at.
"""
import os
import re

from schema_check import BASIC, Form, Maybe, Table, Unread, expression

FILES = ["crates/lalrpop_norm_json/specs/%s.antt" % name for name in ("Forms", "SymbolForms", "ItemForms")] \
    + ["crates/lalrpop_norm_lowered_json_tables/specs/TableForms.antt"] \
    + ["crates/lalrpop_norm_lowered_json/specs/%s.antt" % name for name in ("LoweredForms", "WholeForms")]
START = "whole_form"
SIGNATURE = re.compile(r"\s*(?:abbrev )?(?:pub )?(\w+) : ")
CLAUSE = re.compile(r"\s*((?:\w+_form)|kind_name)\b([^=]*) =\s?(.*)")


class Called(str):
    """The name of a definition; a call of it is that name."""

    def __call__(self, *arguments):
        return self


class Kind(str):
    """A kind of value; a text that is written out, which begins with a capital letter, is that one alone."""

    def __call__(self, value):
        return Form(names=frozenset([value])) if self == "text" and value[:1].isupper() else self


def clauses(path):
    """The right sides of each definition in a file, as texts; with the first word of what is on the left."""
    found, last = {}, None
    with open(path, encoding="utf-8") as file:
        lines = file.read().split("\n")
    for line in lines:
        clause = CLAUSE.match(line)
        if clause and not line.startswith(("use ", "--")):
            last = [(re.findall(r"[\w.]+", clause.group(2)) or [""])[0], clause.group(3)]
            found.setdefault(clause.group(1), []).append(last)
        elif not line.strip() or line.lstrip().startswith(("abbrev", "use ", "--")) or SIGNATURE.match(line):
            last = None
        elif last:
            last[1] += " " + line.strip()
    return found


def joined(parts, name):
    """The place that some right sides say together."""
    parts = [part for part in parts if part is not None]
    if len(parts) == 1:
        return parts[0]
    if "null" in parts and len(parts) == 2:
        return Maybe(next(part for part in parts if part != "null"))
    if not parts or not all(isinstance(part, Form) and (part.names or part.cases) for part in parts):
        raise Unread("%s: its right sides are not read" % name)
    names = frozenset(word for part in parts for word in part.names or ())
    cases = {key: place for part in parts for key, place in (part.cases or {}).items()}
    return Form(names=names or None, cases=cases or None)


class Definitions:
    """The definitions of some files, and the place that each is."""

    def __init__(self, root):
        self.clauses, self.places = {}, {}
        for path in FILES:
            self.clauses.update(clauses(os.path.join(root, path)))
        self.words = {
            "string": Kind("text"), "boolean": Kind("bool"), "natural": Kind("number"), "null": "null", "no_items": None,
            "fields": lambda rows: Form(fields=dict(rows)), "variant": self.variant, "row": lambda places: Form(row=places),
            "array": lambda place: Form(items=place), "item": lambda place, rest: place,
            "list_form": lambda place, *_: Form(items=place), "maybe_form": lambda place, *_: Maybe(place),
            "rows_form": lambda key, value, *_: Form(items=Form(row=[key, value])),
            # (the types of a path stand for an argument of `applied_form`)
            "ts": Called("reprs_form"), "action_index": Called("an index"),
        }
        self.words.update((name, Called(name)) for name in self.clauses if name != "rows_form")

    def variant(self, name, held):
        """A variant; `kind_name` gives the name of each that `held_form` holds."""
        if name != "kind_name":
            return Form(cases={name: held})
        names, holds = self.clauses["kind_name"], self.clauses["held_form"]
        if [left for left, _ in names] != [left for left, _ in holds]:
            raise Unread("kind_name and held_form have other cases")
        return Form(cases={self.right(name): self.right(hold) for (_, name), (_, hold) in zip(names, holds)})

    def right(self, text):
        return expression(re.sub(r"\b([a-z]\w*)(\.\w+)+", r"\1", text), self.words)

    def place(self, name):
        """The place that a definition is: a form, or the name of another definition."""
        if name not in self.places:
            try:
                self.places[name] = joined([self.right(text) for _, text in self.clauses[name]], name)
            except (IndexError, KeyError, TypeError, AttributeError):
                raise Unread("the right side of %s" % name)
        return self.places[name]

    def resolved(self, place, found):
        """A place in which no name is another name's."""
        if isinstance(place, Maybe):
            return Maybe(self.resolved(place.place, found))
        if isinstance(place, Form):
            return Form(place.basic, place.names, None if place.items is None else self.resolved(place.items, found),
                        place.row and [self.resolved(part, found) for part in place.row],
                        place.fields and {key: self.resolved(part, found) for key, part in place.fields.items()},
                        place.cases and {key: self.resolved(part, found) for key, part in place.cases.items()})
        if str(place) in BASIC:
            return str(place)
        held = self.place(str(place))
        if not isinstance(held, Form):
            return self.resolved(held, found)
        if str(place) not in found:
            found[str(place)] = None
            found[str(place)] = self.resolved(held, found)
        return str(place)


def of_definitions(root):
    """The table of the forms that `whole_form` uses."""
    forms = {}
    start = Definitions(root).resolved(START, forms)
    return Table(dict(BASIC, **forms), start)
