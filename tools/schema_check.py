"""Compares docs/use/tree.schema.json with what else defines a tree: `tools/schema --check`. (Whole lowered grammars: schema_lowered.py.)

- The table of shapes, crates/lalrpop_norm_json/specs/Shapes.antt: each form, with its fields and variants and what they hold.
  The reader is proved to take what has the shape of a grammar, and nothing else.
- The code of the reader, crates/lalrpop_norm_json/src: the lists of keys that it asks for, and the names of variants.
- The fields in docs/use/FORMATS.md.
- The trees of crates/cases and examples, and trees with one key or item changed: by the table, which is run here.

A form is read from each of them as a `Form`. What is in one is a place: the name of a form, a form, or a `Maybe` of a place.
"""
import glob
import os
import re

import schema_words

SHAPES = "crates/lalrpop_norm_json/specs/Shapes.antt"
READER = "crates/lalrpop_norm_json/src/tree"
FORMATS = "docs/use/FORMATS.md"
GREATEST, GREATEST_SHORT = 2 ** 64 - 1, 2 ** 16 - 1


class Unread(Exception):
    """A text that is not in the form that is known here."""


class Form:
    """What a value may be, for each kind of JSON value: `basic` of null, truth, number, short number, text; `names` are the texts that it may
    be; `items` is what an array holds, `row` what it has at each place; `fields` are those of an object, `cases` those of which
    an object has one."""

    PARTS = ("basic", "names", "items", "row", "fields", "cases")

    def __init__(self, basic=(), names=None, items=None, row=None, fields=None, cases=None):
        self.basic, self.names, self.items, self.row = frozenset(basic), names, items, row
        self.fields, self.cases = fields, cases


class Maybe:
    """A place where null may stand."""

    def __init__(self, place):
        self.place = place


BASIC = {"text": Form({"text"}), "natural": Form({"number"}), "truth": Form({"truth"}),
         "number": Form({"number"}), "short": Form({"short"}), "bool": Form({"truth"})}


class Table:
    """Forms by their names."""

    def __init__(self, forms, start):
        self.forms, self.start = forms, start

    def form(self, place):
        if isinstance(place, Maybe):
            form = self.form(place.place)
            return Form(form.basic | {"null"}, form.names, form.items, form.row, form.fields, form.cases)
        if isinstance(place, str) and place not in self.forms:
            raise Unread("there is no form %s" % place)
        return self.forms[place] if isinstance(place, str) else place


# ---- the table of shapes

TOKEN = re.compile(r'\s*(codes "(\w+)"|\[\]|[()∷,]|[a-z_]+)')


def expression(text, words):
    """The value of a right side of the table: lists, pairs, and calls of the functions in `words`."""
    tokens = []
    while text.strip():
        match = TOKEN.match(text)
        if not match:
            raise Unread(text.strip()[:40])
        tokens.append(match)
        text = text[match.end():]

    def one():
        match = tokens.pop(0)
        if match.group(2):
            return match.group(2)
        if match.group(1) == "[]":
            return []
        if match.group(1) == "(":
            found = [whole()]
            while tokens[0].group(1) == ",":
                tokens.pop(0)
                if tokens[0].group(1) != ")":
                    found.append(whole())
            tokens.pop(0)
            return found[0] if len(found) == 1 else tuple(found)
        return words.get(match.group(1), match.group(1))

    def whole():
        head = one()
        arguments = []
        while tokens and tokens[0].group(1) not in ("∷", ",", ")"):
            arguments.append(one())
        if arguments:
            head = head(*arguments)
        if tokens and tokens[0].group(1) == "∷":
            tokens.pop(0)
            return [head] + whole()
        return head

    return whole()


def of_shapes(path):
    with open(path, encoding="utf-8") as file:
        text = file.read()
    names = re.search(r"^pub data ShapeName .*\n((?:  \w+ : ShapeName\n)+)", text, re.M).group(1)
    forms = {}
    words = {
        "a_text": BASIC["text"], "a_natural": BASIC["natural"], "a_short": BASIC["short"], "a_truth": BASIC["truth"],
        "one": lambda name: name, "maybe": Maybe, "many": lambda name: Form(items=name),
        "each": lambda name: Form(items=name), "row": lambda places: Form(row=places), "arrayed": lambda array: array,
        "field": lambda place: place, "several": lambda places: Form(row=places), "named": lambda rows: Form(fields=dict(rows)),
        "struct": lambda rows: Form(fields=dict(rows)),
        "variants": lambda names, rows: Form(names=frozenset(names) or None, cases=dict(rows) or None),
    }
    for head, right in re.findall(r"^shape (\w+) = ?((?:.*\n)(?:[ \t]+.*\n)*)", text, re.M):
        try:
            forms[head] = expression(right, words)
        except (IndexError, TypeError):
            raise Unread("%s: the right side of `shape %s`" % (path, head))
    if set(forms) != set(re.findall(r"(\w+) :", names)):
        raise Unread("%s: not each shape has a right side that is read" % path)
    return Table(forms, "grammar")


# ---- the schema

def of_schema(schema):
    """The forms of the schema; those that are not written as its others are Unread."""
    def place(node):
        if set(node) - {"description"} == {"$ref"}:
            return node["$ref"][len(schema_words.HERE):]
        if len(node.get("anyOf", [])) == 2 and node["anyOf"][0] == {"type": "null"} and set(node) - {"description"} == {"anyOf"}:
            return Maybe(place(node["anyOf"][1]))
        return read(node)

    def read(node):
        node = {word: part for word, part in node.items() if word != "description"}
        words = set(node)
        if words == {"enum"}:
            return Form(names=frozenset(node["enum"]))
        if words == {"anyOf"}:
            return joined([read(part) for part in node["anyOf"]])
        kind = node.get("type")
        if words == {"type"} and kind in ("null", "string", "boolean"):
            return Form({{"null": "null", "string": "text", "boolean": "truth"}[kind]})
        if kind == "integer" and words == {"type", "minimum", "maximum"} and node["minimum"] == 0:
            for number, greatest in (("number", GREATEST), ("short", GREATEST_SHORT)):
                if node["maximum"] == greatest:
                    return Form({number})
        if kind == "array" and words == {"type", "items"} and node["items"]:
            return Form(items=place(node["items"]))
        if kind == "array" and words == {"type", "prefixItems", "items", "minItems"} and node["items"] is False \
                and node["minItems"] == len(node["prefixItems"]):
            return Form(row=[place(part) for part in node["prefixItems"]])
        held = kind == "object" and {key: place(part) for key, part in node.get("properties", {}).items()}
        if held and words == {"type", "properties", "required", "additionalProperties"} and set(node["required"]) == set(held):
            return Form(fields=held)
        if held and words == {"type", "properties", "minProperties", "maxProperties", "additionalProperties"} \
                and node["minProperties"] == node["maxProperties"] == 1:
            return Form(cases=held)
        raise Unread("the schema has a form that is not known: %s" % str(node)[:100])

    def joined(found):
        """A value that is one of these, which have no kind of value in common."""
        whole = Form()
        for form in found:
            for part in Form.PARTS:
                mine, other = getattr(whole, part), getattr(form, part)
                if mine and other and part != "basic":
                    raise Unread("two forms in an anyOf have a kind of value in common")
                setattr(whole, part, mine | other if part == "basic" else mine or other)
        return whole

    if set(schema) != {"$schema", "title", "description", "$ref", "$defs"}:
        raise Unread("the schema has other words at its top")
    return Table({name: read(node) for name, node in schema["$defs"].items()}, place({"$ref": schema["$ref"]}))


# ---- docs/use/FORMATS.md

WORD = re.compile(r"\s*([A-Za-z_]+|[][(){},|?:])")


def of_formats(path):
    return Table(dict(BASIC, Span=Form(row=["number", "number"]), **rows_under(path, "### The fields")), "Grammar")


def rows_under(path, heading):
    """The forms of the first block of code under a heading, by their names."""
    with open(path, encoding="utf-8") as file:
        found = re.search(r"^%s$.*?^```\n(.*?)^```$" % re.escape(heading), file.read(), re.M | re.S)
    if not found:
        raise Unread("%s: no table under %s" % (path, heading))
    forms = {}
    for name, right in re.findall(r"^(\w+) +((?:.*\n)(?: +.*\n)*)", found.group(1), re.M):
        words = WORD.findall(right)
        if "".join(words) != re.sub(r"\s", "", right):
            raise Unread("%s: the fields of %s" % (path, name))
        forms[name] = Form(fields=fields(words, None)) if words[0].islower() else variants(words, True)
        if words:
            raise Unread("%s: %s behind the fields of %s" % (path, " ".join(words[:3]), name))
    return forms


def taken(words, word):
    """Takes the word, if it is the next."""
    if words and words[0] == word:
        return words.pop(0)
    return None


def next_name(words):
    if not words or not words[0][0].isalpha():
        raise Unread("docs/use/FORMATS.md: no name where one was to stand: %s" % " ".join(words[:3]))
    return words.pop(0)


def closed(words, word):
    if not taken(words, word):
        raise Unread("docs/use/FORMATS.md: %s where %s was to stand" % (" ".join(words[:3]), word))


def fields(words, end):
    found = {}
    while True:
        name = next_name(words)
        found[name] = variants(words, False) if taken(words, ":") else name.capitalize()
        if not taken(words, ","):
            break
    if end:
        closed(words, end)
    return found


def variants(words, is_whole):
    """A place; or where there are several, or a whole right side is read, variants."""
    names, held = [], {}
    while True:
        if taken(words, "["):
            found = Form(items=variants(words, False))
            closed(words, "]")
            return Maybe(found) if taken(words, "?") else found
        if taken(words, "{"):
            row = [variants(words, False)]
            closed(words, ":")
            row.append(variants(words, False))
            closed(words, "}")
            return Form(items=Form(row=row))
        name = next_name(words)
        if taken(words, "("):
            places = [variants(words, False)]
            while taken(words, ","):
                places.append(variants(words, False))
            closed(words, ")")
            held[name] = places[0] if len(places) == 1 else Form(row=places)
        elif taken(words, "{"):
            held[name] = Form(fields=fields(words, "}"))
        elif taken(words, "?"):
            return Maybe(name)
        else:
            names.append(name)
        if not taken(words, "|"):
            break
    if not is_whole and len(names) == 1 and not held:
        return names[0]
    return Form(names=frozenset(names) or None, cases=held or None)


# ---- two tables compared

def differences(one, other, same_names):
    """Where two tables differ, and which forms of each stand for which of the other."""
    found, seen = [], set()

    def keys(mine, its, where, what):
        for key in sorted(set(mine) - set(its)):
            found.append('%s: %s "%s" is in the first alone' % (where, what, key))
        for key in sorted(set(its) - set(mine)):
            found.append('%s: %s "%s" is in the second alone' % (where, what, key))
        return sorted(set(mine) & set(its))

    def named(place):
        return "%s?" % named(place.place) if isinstance(place, Maybe) else place

    def walk(mine, its, where):
        if isinstance(mine, Maybe) and isinstance(its, Maybe):
            return walk(mine.place, its.place, where)
        if same_names and isinstance(mine, str) and isinstance(its, str) and mine != its and mine not in BASIC:
            found.append("%s: %s, and %s" % (where, mine, its))
        if (named(mine), named(its)) in seen:
            return
        seen.add((named(mine), named(its)))
        where = its if isinstance(its, str) else where
        a, b = one.form(mine), other.form(its)
        keys(a.basic, b.basic, where, "the kind")
        keys(a.names or (), b.names or (), where, "the text")
        for part in ("items", "row", "fields", "cases"):
            if (getattr(a, part) is None) != (getattr(b, part) is None):
                found.append("%s: %s are in one alone" % (where, part))
        if a.items is not None and b.items is not None:
            walk(a.items, b.items, where + "[]")
        if a.row is not None and b.row is not None:
            if len(a.row) != len(b.row):
                found.append("%s: %d and %d places" % (where, len(a.row), len(b.row)))
            for i, (x, y) in enumerate(zip(a.row, b.row)):
                walk(x, y, "%s[%d]" % (where, i))
        for part, what in (("fields", "the key"), ("cases", "the variant")):
            x, y = getattr(a, part), getattr(b, part)
            if x is not None and y is not None:
                for key in keys(x, y, where, what):
                    walk(x[key], y[key], where + "." + key)

    walk(one.start, other.start, "top")
    for i, table in enumerate((one, other)):
        reached = {pair[i] for pair in seen}
        found += ["%s: the form is not reached" % name for name in sorted(set(table.forms) - reached - set(BASIC))]
    return found


def all_forms(table):
    """The forms of a table, those without a name too."""
    seen = []

    def walk(form):
        if any(form is other for other in seen):
            return
        seen.append(form)
        places = [form.items] + (form.row or []) + list((form.fields or {}).values()) + list((form.cases or {}).values())
        for place in places:
            if isinstance(place, Form):
                walk(place)
    for form in table.forms.values():
        walk(form)
    return seen


# ---- the code of the reader

KEYS = re.compile(r'&\[((?:\s*"\w+",?)+)\s*\]')
ANSWER = re.compile(r"\) -> (Result<)?Option<(.*?)>(?:, ReadError>)?(?: \{)?$", re.M)
ARM = re.compile(r'^ +"(\w+)" =>', re.M)


def block(text, start):
    """What stands between the brace at or behind `start` and the one that closes it."""
    first = at = text.index("{", start)
    depth = 0
    while True:
        depth += {"{": 1, "}": -1}.get(text[at], 0)
        at += 1
        if not depth:
            return text[first:at]


def of_reader(folder):
    """The lists of keys in the code, of records that a table reads and of those that have a loop; the pairs of names of variants, without
    and with content, which two functions look for that answer one type; and the texts in neither, each with a line that says where."""
    lists, variants, rest = set(), {}, []
    for path in sorted(glob.glob(os.path.join(folder, "*.rt"))):
        with open(path, encoding="utf-8") as file:
            text = re.sub(r'//.*|codes "\w+"', "", file.read())
        texts = re.findall(r'"([^"\n]*)"', text)
        found = [re.findall(r"\w+", keys) for keys in KEYS.findall(text)]
        found += [ARM.findall(block(text, match.start())) for match in re.finditer(r"match key \{", text)]
        lists.update(map(frozenset, found))
        for match in re.finditer(r"match name \{", text):
            holds, of = ANSWER.findall(text, 0, match.start())[-1]
            names = ARM.findall(block(text, match.start()))
            variants.setdefault(of, [frozenset(), frozenset()])[bool(holds)] |= set(names)
            found.append(names)
        texts = without(texts, [name for names in found for name in names])
        rest += [(name, '%s: the text "%s"' % (os.path.basename(path), name)) for name in texts]
    return lists, set(map(tuple, variants.values())), rest


def without(texts, taken_ones):
    for name in taken_ones:
        texts.remove(name)
    return texts


def reader_differences(folder, table):
    lists, variants, rest = of_reader(folder)
    forms = all_forms(table)
    known = {name for form in forms for part in (form.fields, form.cases, form.names) for name in part or ()}
    found = [line for name, line in rest if name not in known]
    my_lists = {frozenset(form.fields) for form in forms if form.fields}
    my_variants = {(form.names or frozenset(), frozenset(form.cases or ())) for form in forms if form.names or form.cases}
    for what, mine, its in (("keys", my_lists, lists), ("variants", my_variants, variants)):
        for where, more in (("schema", mine - its), ("reader", its - mine)):
            found += ["%s in the %s alone: %s" % (what, where, one) for one in sorted(map(listed, more))]
    return found, len(lists), len(variants)


def said(is_tree):
    return "a tree" if is_tree else "no tree"


def listed(keys):
    return ", ".join(sorted(keys)) if isinstance(keys, frozenset) else " | ".join(listed(side) for side in keys)


# ---- values by the table

def fits(table, place, value, used=None):
    """Whether a value has a form; `used` gets what of the forms stands in it."""
    form = table.form(place)

    def use(what):
        if used is not None:
            used.add((place, what))
        return True

    if value is None:
        return "null" in form.basic and use("null")
    if isinstance(value, bool):
        return "truth" in form.basic and use("truth")
    if isinstance(value, (int, float)):
        greatest = GREATEST if "number" in form.basic else GREATEST_SHORT if "short" in form.basic else -1
        return type(value) is int and 0 <= value <= greatest
    if isinstance(value, str):
        return "text" in form.basic or form.names is not None and value in form.names and use(value)
    if isinstance(value, list):
        if form.row is not None:
            return len(value) == len(form.row) and all(fits(table, p, v, used) for p, v in zip(form.row, value))
        return form.items is not None and use("items") and all(fits(table, form.items, v, used) for v in value)
    if form.fields is not None:
        return set(value) == set(form.fields) and use("fields") \
            and all(fits(table, p, value[k], used) for k, p in form.fields.items())
    if form.cases is not None and len(value) == 1:
        key, held = next(iter(value.items()))
        return key in form.cases and use(key) and fits(table, form.cases[key], held, used)
    return False


def smallest(table, place):
    """A small value of a form."""
    form = table.form(place)
    if form.names:
        return sorted(form.names)[0]
    for kind, value in (("null", None), ("text", "x"), ("number", 0), ("short", 0), ("truth", False)):
        if kind in form.basic:
            return value
    if form.row is not None:
        return [smallest(table, p) for p in form.row]
    if form.items is not None:
        return []
    if form.fields is not None:
        return {key: smallest(table, p) for key, p in form.fields.items()}
    key = "Id" if "Id" in form.cases else "Lifetime" if "Lifetime" in form.cases else next(iter(form.cases))
    return {key: smallest(table, form.cases[key])}


def steps(table, place):
    """The places in a form, each with what makes a value of the form around a value at it."""
    form = table.form(place)
    if form.items is not None:
        yield form.items, lambda v: [v]
    for i, part in enumerate(form.row or []):
        yield part, lambda v, i=i: [v if j == i else smallest(table, p) for j, p in enumerate(form.row)]
    for key, part in (form.fields or {}).items():
        yield part, lambda v, key=key: {k: v if k == key else smallest(table, p) for k, p in form.fields.items()}
    for key, part in (form.cases or {}).items():
        yield part, lambda v, key=key: {key: v}


def values(table, place):
    """Values that together use what stands in a form."""
    form = table.form(place)
    yield from sorted(form.names or ())
    yield from (v for kind, vs in (("null", [None]), ("truth", [True, False])) if kind in form.basic for v in vs)
    if form.items is not None:
        yield from ([smallest(table, form.items)] * n for n in (0, 1, 2))
    if form.fields is not None:
        yield smallest(table, place)
    yield from ({key: smallest(table, p)} for key, p in (form.cases or {}).items())


def made_trees(table):
    """Small trees that together use every form, with what is optional both there and not."""
    around, waiting = set(), [(table.start, lambda v: v)]
    while waiting:
        place, make = waiting.pop(0)
        if place in around:
            continue
        around.add(place)
        yield from (make(value) for value in values(table, place))
        waiting += [(part, lambda v, inner=inner, make=make: make(inner(v))) for part, inner in steps(table, place)]


def chosen_trees(table, trees):
    """Few of the trees, which together use what all of them use."""
    uses = []
    for tree in trees:
        used = set()
        if not fits(table, table.start, tree, used):
            raise Unread("a tree is none by the table")
        uses.append((tree, used))
    found, rest = [], set().union(*(used for _, used in uses))
    while rest:
        tree, used = max(uses, key=lambda pair: len(pair[1] & rest) / (10 + len(str(pair[0]))))
        found.append(tree)
        rest -= used
    return found


OTHERS = [None, True, 7, 1.5, "further", [], [0, 0], {}, {"Id": "x"}]
NO_NATURALS = [-1, GREATEST_SHORT, GREATEST_SHORT + 1, GREATEST + 1]


def changed(tree, vocabulary):
    """The tree with one key or item removed, renamed, added, or put for one of another kind: each changed tree, once."""
    holders = []

    def walk(value):
        if isinstance(value, (dict, list)):
            holders.append(value)
            for part in list(value.values() if isinstance(value, dict) else value):
                walk(part)
    walk(tree)
    turn = 0
    for holder in holders:
        kept = dict(holder) if isinstance(holder, dict) else list(holder)

        def put(changed_one):
            holder.clear()
            (holder.update if isinstance(holder, dict) else holder.extend)(changed_one)

        for key in list(kept) if isinstance(kept, dict) else range(len(kept)):
            for other in OTHERS + (NO_NATURALS if type(kept[key]) is int else []):
                holder[key] = other
                yield "another value", tree
            put(kept)
            if isinstance(kept, dict):
                put({k: v for k, v in kept.items() if k != key})
                yield "a key removed", tree
                turn += 1
                for name in (key + "s", key.swapcase(), vocabulary[turn % len(vocabulary)]):
                    put({name if k == key else k: v for k, v in kept.items()})
                    yield "a key renamed", tree
            else:
                put(kept[:key] + kept[key + 1:])
                yield "an item removed", tree
            put(kept)
        if isinstance(kept, dict):
            for name in ("further", vocabulary[turn % len(vocabulary)]):
                if name not in kept:
                    put(dict(kept, **{name: None}))
                    yield "a further key", tree
        else:
            for more in (None, kept[-1] if kept else 0):
                put(kept + [more])
                yield "a further item", tree
        put(kept)


# ---- the check

# Calls that look at a text as JSON, and don't say whether it is a tree.
JSON_CALLS = {"read_twice", "beginnings"}
# How the programs' lines on standard error begin, if the arguments are wrong, and if the text is no tree.
USAGES = ("standard error: lnorm: usage", "standard error: lexplain: usage")
NO_TREES = ("standard error: lnorm: not a tree", "standard error: lexplain: the file is no tree")


def wanted_readings(root):
    """The names of the cases' files, each with whether it is to be a tree, by the answers that are wanted: nothing, where no
    answer says so, as of what is named beside a grammar."""
    with open(os.path.join(root, "crates/cases/stdout"), encoding="utf-8", errors="replace") as file:
        answers = re.split(r"^== ", file.read(), flags=re.M)[1:]
    found = {}
    for answer in answers:
        head, _, text = answer.partition("\n")
        name, call = (head.split() + [""])[:2]
        name, _, beside = name.partition("+")
        if beside:
            found.setdefault(beside, set())
        text = text.strip("\n")
        if text in ("no file", "no case", "no such call", "usage", "memory") or text.startswith(USAGES) \
                or not call or call.startswith("cut_"):
            continue
        if call in JSON_CALLS:
            found.setdefault(name, set())
            continue
        is_tree = text not in ("not a tree", "no tree") and not text.startswith(NO_TREES)
        found.setdefault(name, set()).add(is_tree)
    return found


def null_places(table):
    """Where null may stand beside something else: the keys of structs and the variants, with their forms."""
    found = []
    for name, form in table.forms.items():
        waiting = [(name, form)]
        while waiting:
            where, form = waiting.pop(0)
            for key, place in sorted(list((form.fields or {}).items()) + list((form.cases or {}).items())):
                if isinstance(place, Maybe):
                    found.append("%s.%s" % (where, key))
                elif isinstance(place, Form):
                    waiting.append(("%s.%s" % (where, key), place))
    return found


def check(root, schema, value_of, faults, program=None):
    """Prints what agrees and what differs, with counts, and gives the status."""
    try:
        return compare(root, schema, value_of, faults, program)
    except Unread as error:
        print("not read: %s" % error)
        return 1


def compare(root, schema, value_of, faults, program):
    import schema_lowered
    wrong = []

    def part(title, found):
        print("%s: %s" % (title, "differ" if found else "agree"))
        wrong.extend(found)
        for line in found[:20]:
            print("  " + line)
        if len(found) > 20:
            print("  and %d more" % (len(found) - 20))

    mine = of_schema(schema)
    shapes = of_shapes(os.path.join(root, SHAPES))
    forms = all_forms(mine)
    print("the schema: %d forms with a name, %d keys of structs, %d variants" % (
        len(mine.forms), sum(len(form.fields or ()) for form in forms),
        sum(len(form.names or ()) + len(form.cases or ()) for form in forms)))
    print("  no key may be missing; null may stand at " + ", ".join(null_places(mine)))
    part("the table of shapes (%d) and the schema" % len(shapes.forms), differences(shapes, mine, False))
    found, lists, variants = reader_differences(os.path.join(root, READER), mine)
    part("the reader's code (%d lists of keys, %d of variants) and the schema" % (lists, variants), found)
    formats = of_formats(os.path.join(root, FORMATS))
    part("docs/use/FORMATS.md (%d forms) and the schema" % (len(formats.forms) - len(BASIC)), differences(formats, mine, True))

    wanted = wanted_readings(root)
    counts, found, trees = {"tree": 0, "schema": 0, "text": 0}, [], []
    paths = sorted(glob.glob(os.path.join(root, "examples/*.json")) + glob.glob(os.path.join(root, "crates/cases/data/*.json")))
    for path in paths:
        name = os.path.splitext(os.path.basename(path))[0]
        in_cases = os.path.basename(os.path.dirname(path)) == "data"
        says = wanted.get(name) if in_cases else {True}
        with open(path, "rb") as file:
            data = file.read()
        is_tree = not faults(schema, data)
        try:
            value = value_of(data)
            by_table = fits(shapes, shapes.start, value)
        except ValueError:
            value, by_table = None, False
        if by_table != is_tree:
            found.append("%s: %s by the schema, %s by the table" % (name, said(is_tree), said(by_table)))
        if says is None:
            found.append("%s: no line of the script says whether it is a tree" % name)
        elif says and says != {is_tree}:
            found.append("%s: %s by the schema, %s by the wanted answers" % (
                name, said(is_tree), " and ".join(map(said, sorted(says)))))
        if is_tree and by_table:
            counts["tree"] += 1
            trees.append(value)
        else:
            counts["schema" if value is not None and schema_words.faults(schema, value) else "text"] += 1
    part("%d files, %d trees, %d none by the schema, %d none by the text alone; the wanted answers" % (
        len(paths), counts["tree"], counts["schema"], counts["text"]), found)

    made = list(made_trees(shapes))
    found = ["a tree that was made of the table: %s" % str(tree)[:300] for tree in made
             if schema_words.faults(schema, tree) or not fits(shapes, shapes.start, tree)]
    chosen = chosen_trees(shapes, trees + made)
    vocabulary = sorted({key for form in forms for part in (form.fields, form.cases, form.names) for key in part or ()})
    kinds = {}
    for tree in chosen:
        for kind, other in changed(tree, vocabulary):
            by_table = fits(shapes, shapes.start, other)
            if by_table == bool(schema_words.faults(schema, other)):
                found.append("%s: %s by the table, not so by the schema: %s" % (kind, said(by_table), str(other)[:300]))
            count = kinds.setdefault(kind, [0, 0])
            count[by_table] += 1
    from_files = sum(any(tree is other for other in trees) for tree in chosen)
    part("%d trees made of the table; %d trees that use every form, %d of them of files, and %d changes of them; the table" % (
        len(made), len(chosen), from_files, sum(map(sum, kinds.values()))), found)
    for kind, (no, yes) in sorted(kinds.items()):
        print("  %s: %d are no trees, %d still are" % (kind, no, yes))
    schema_lowered.check(root, program, part)
    agree = "the schemas, the reader, the writer, docs/use/FORMATS.md and the cases agree"
    print("tools/schema: %s" % ("%d differences" % len(wrong) if wrong else agree))
    return 1 if wrong else 0
