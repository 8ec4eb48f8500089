"""What the code of the writer of lowered grammars writes: structs with their keys, and variants; a part of tools/schema.

Each function is read from its first line to its last, without looking at what it depends on: the brackets, keys and names that it
writes. A function that writes fields without their object is read in the place of its calls.
"""
import collections
import glob
import os
import re

from schema_check import Unread, all_forms, block

WRITER = "crates/lalrpop_norm_lowered_json*/src"
# The modules with a function for any type.
GENERIC = ("put.rt", "tests.rt", "lib.rt", "laws.rt")
FUNCTION = re.compile(r"\bfn (\w+)")
EVENT = re.compile(r'\bout\.(begin_object|end_object)\(\)|\bout\.(key|string)\("(\w+)"\)|(?<![\w.])(\w+)(?:::<[^()"]*>)?\(\s*out,\s*"(\w+)"'
                   r"|(?<![\w.:>])(\w+)\(\s*out\b")


class Function:
    """A function of the writer: whether it writes a key, or a variant, that its caller names, and what it writes."""

    def __init__(self, head, body):
        self.takes_name = "name: &str" in head
        self.is_variant = self.takes_name and "begin_variant(out, name)" in body
        self.events = [tuple(part for part in match.groups() if part) for match in EVENT.finditer(body)]
        self.is_open = None


def kind_of(event, functions):
    if len(event) == 1:
        return {"begin_object": "begin", "end_object": "end"}.get(event[0], "call")
    if event[0] in ("key", "string"):
        return event[0]
    if event[0] == "begin_variant":
        return "begin variant"
    if event[0] == "put_variant":
        return "variant"
    if event[0] in ("put_field", "put_list_field", "put_rows_field", "put_maybe_field"):
        return "key"
    if event[0] not in functions:
        raise Unread("%s: there is no function %s" % (WRITER, event[0]))
    return "variant" if functions[event[0]].is_variant else "key"


def functions_of(folder):
    """The functions by their names; those of traits, whose names are one, by a number."""
    found = {}
    for path in sorted(glob.glob(os.path.join(folder, "*.rt"))):
        if os.path.basename(path) in GENERIC:
            continue
        with open(path, encoding="utf-8") as file:
            text = re.sub(r'//.*|codes "\w+"', "", file.read())
        for match in FUNCTION.finditer(text):
            start = text.index("{\n", match.start())
            name = match.group(1) if match.group(1) not in found and match.group(1) != "put" else str(len(found))
            found[name] = Function(text[match.start():start], block(text, start))
    return found


def is_open(name, functions):
    """Whether a function writes fields without their object, or one bracket of it. One that is asked for meanwhile does not."""
    function = functions[name]
    if function.is_open is None:
        function.is_open = False
        depth = 0
        for kind, _ in written(name, functions):
            depth += {"begin": 1, "end": -1, "begin variant": 1}.get(kind, 0)
            if depth < 0 or depth == 0 and kind == "key":
                function.is_open = True
        function.is_open = function.is_open or depth != 0
    return function.is_open


def written(name, functions):
    """The events of a function, with those of open ones in the place of their calls."""
    for event in functions[name].events:
        kind = kind_of(event, functions)
        if kind == "call" and event[0] in functions and is_open(event[0], functions):
            yield from written(event[0], functions)
        elif kind != "call":
            yield kind, event[-1]


def of_writer(folder):
    """The lists of keys of the structs, and the names of variants with content and without, each with how often it is written."""
    functions = functions_of(folder)
    structs, variants, names = collections.Counter(), collections.Counter(), collections.Counter()
    for name, function in functions.items():
        if function.takes_name or is_open(name, functions):
            continue
        objects = []
        for kind, word in written(name, functions):
            if kind in ("begin", "begin variant"):
                objects.append([])
            if kind in ("variant", "begin variant"):
                variants[word] += 1
            elif kind == "string":
                names[word] += 1
            elif kind == "key":
                objects[-1].append(word)
            elif kind == "end":
                keys = objects.pop()
                structs.update([tuple(keys)] if keys else [])
    return structs, variants, names


def differences(root, table):
    """How many structs and variants the code has, and where it differs from a table."""
    structs, variants, names = of_writer(os.path.join(root, WRITER))
    forms = all_forms(table)
    mine = [collections.Counter(tuple(sorted(form.fields)) for form in forms if form.fields),
            collections.Counter(key for form in forms for key in form.cases or ()),
            collections.Counter(key for form in forms for key in form.names or ())]
    found = []
    for what, its, other in zip(("keys", "the variant", "the text"), (structs, variants, names), mine):
        # What holds types has a second writer, for types that share their parts: it writes nothing else.
        for where, more in (("code", set(its) - set(other)), ("schema", other - its)):
            found += ["%s in the %s alone: %s" % (what, where, one if isinstance(one, str) else ", ".join(one)) for one in sorted(more)]
    return sum(structs.values()), sum(variants.values()) + sum(names.values()), found
