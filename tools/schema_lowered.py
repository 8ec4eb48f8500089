"""Makes docs/use/lowered.schema.json, and compares it with what else defines a whole lowered grammar; a part of tools/schema.

The schema is made of the table in section 5 of docs/use/FORMATS.md. It is compared with

- the definitions of the form, in specs/ of crates/lalrpop_norm_json and crates/lalrpop_norm_lowered_json* (schema_forms.py);
- the code of the writer, crates/lalrpop_norm_lowered_json*/src (schema_writer.py);
- small grammars made of the table, and these with one key or item changed: by the table, which is run here;
- what the program lexplain prints of the grammars of crates/cases and examples, if a program is named.
"""
import concurrent.futures
import glob
import json
import os
import subprocess

import schema_check
import schema_forms
import schema_words
import schema_writer
from schema_check import BASIC, Form, GREATEST, Maybe, Table, Unread, all_forms, differences

SCHEMA = "docs/use/lowered.schema.json"
ROWS = "### The fields of a lowered grammar"
START = "Whole"
# The types that the lowered side has another one for.
OTHERS = {"Type": "TypeRepr"}
TITLE = "A whole lowered grammar"
DESCRIPTION = ("What `lexplain grammar` prints: docs/use/FORMATS.md, section 5. The text is one line, without blanks, and has the "
               "keys of objects in their order. A table is an array of pairs, a key and its value, in the order of the keys.")
WIDTH = 110
# With so many rounds no macro grows far; what takes longer is left out, and counted.
LIMIT, SECONDS = "12", 20
SLOW = ["takes too long"]


# ---- the table, and the schema that is made of it

def of_formats(path):
    """The table of section 5, with the rows of section 1 that it uses."""
    forms = {name: lowered(form) for name, form in schema_check.of_formats(path).forms.items()}
    forms.update(schema_check.rows_under(path, ROWS))
    return Table({name: forms[name] for name in reached(forms) | set(BASIC)}, START)


def lowered(place):
    """A form of a tree, over the lowered types."""
    if isinstance(place, str):
        return OTHERS.get(place, place)
    if isinstance(place, Maybe):
        return Maybe(lowered(place.place))
    if place is None:
        return None
    fields, cases = ({key: lowered(part) for key, part in held.items()} if held is not None else None for held in (place.fields, place.cases))
    row = [lowered(part) for part in place.row] if place.row is not None else None
    return Form(place.basic, place.names, lowered(place.items), row, fields, cases)


def reached(forms):
    """The names of the forms that the whole uses."""
    found, waiting = set(), [START]
    while waiting:
        place = waiting.pop()
        if isinstance(place, Maybe):
            waiting.append(place.place)
        elif isinstance(place, Form):
            waiting += [place.items] if place.items is not None else []
            waiting += (place.row or []) + [part for held in (place.fields, place.cases) for part in (held or {}).values()]
        elif place not in found:
            if place not in forms:
                raise Unread("%s: there is no row %s" % (ROWS, place))
            found.add(place)
            waiting.append(forms[place])
    return found


SIMPLE = {"text": {"type": "string"}, "bool": {"type": "boolean"}, "number": {"type": "integer", "minimum": 0, "maximum": GREATEST}}


def schema_of(place):
    """The schema of a place."""
    if isinstance(place, Maybe):
        return {"anyOf": [{"type": "null"}, schema_of(place.place)]}
    if isinstance(place, str):
        return SIMPLE.get(place) or {"$ref": schema_words.HERE + place}
    return schema_of_form(place)


def schema_of_form(form):
    """The schema of a form, which has no basic kind of value."""
    if form.items is not None:
        return {"type": "array", "items": schema_of(form.items)}
    if form.row is not None:
        return {"type": "array", "prefixItems": [schema_of(part) for part in form.row], "items": False, "minItems": len(form.row)}
    held = {key: schema_of(part) for key, part in (form.fields or form.cases or {}).items()}
    if form.fields is not None:
        return {"type": "object", "properties": held, "required": list(held), "additionalProperties": False}
    names = {"enum": sorted(form.names or ())}
    cases = {"type": "object", "properties": held, "minProperties": 1, "maxProperties": 1, "additionalProperties": False}
    return {"anyOf": [names, cases]} if names["enum"] and held else cases if held else names


def made(path):
    """The text of the schema, made of the table in a document."""
    table = of_formats(path)
    rows = {name: schema_of_form(form) for name, form in sorted(table.forms.items()) if name not in BASIC}
    whole = {"$schema": schema_words.DRAFT, "title": TITLE, "description": DESCRIPTION, "$ref": schema_words.HERE + START, "$defs": rows}
    return laid_out(whole, "") + "\n"


def laid_out(value, indent):
    """JSON in lines: what fits stands in one."""
    line = json.dumps(value, ensure_ascii=False)
    if len(indent) + len(line) <= WIDTH or not isinstance(value, (dict, list)) or not value:
        return line
    inner = indent + "  "
    if isinstance(value, dict):
        return "{\n%s\n%s}" % (",\n".join("%s%s: %s" % (inner, json.dumps(key), laid_out(part, inner)) for key, part in value.items()), indent)
    if all(isinstance(part, str) for part in value):
        return line
    return "[\n%s\n%s]" % (",\n".join(inner + laid_out(part, inner) for part in value), indent)


# ---- what the program prints

def compact(value):
    """The text of a value as the program writes it."""
    return json.dumps(value, ensure_ascii=False, separators=(",", ":"), sort_keys=True).encode() + b"\n"


def printed(program, path, schema):
    """What is wrong with the whole grammar that a program prints of a tree; None if it prints none, SLOW if it does not end."""
    try:
        command = [os.path.abspath(program), "grammar", path, "--origins", "--limit", LIMIT]
        ran = subprocess.run(command, stdout=subprocess.PIPE, stderr=subprocess.DEVNULL, timeout=SECONDS)
    except OSError as error:
        raise Unread("%s: %s" % (program, error.strerror))
    except subprocess.TimeoutExpired:
        return SLOW
    if ran.returncode:
        return None if ran.returncode in (1, 2, 3) and not ran.stdout else ["%s: exit status %d" % (path, ran.returncode)]
    try:
        value = json.loads(ran.stdout)
    except ValueError as error:
        return ["%s: %s" % (path, error)]
    found = ["%s: %s: %s" % (path, schema_words.pointer(at), what) for at, what in schema_words.faults(schema, value)]
    return found + (["%s: blanks, or keys in another order" % path] if compact(value) != ran.stdout else []) + numbering(value, path)


def numbering(value, path):
    """What is wrong with the numbers of terminals and actions, and with the names of nonterminals."""
    grammar, found = value["grammar"], []
    terminals = grammar["terminals"]
    if sorted((number, json.dumps(terminal)) for terminal, number in terminals["bits"]) \
            != [(number, json.dumps(terminal)) for number, terminal in enumerate(terminals["all"])]:
        found.append("%s: `terminals.bits` has not the index of each in `terminals.all`" % path)
    productions = [production for _, entry in grammar["nonterminals"] for production in entry["productions"]]
    actions = len(grammar["action_fn_defns"])
    if sorted(production["action"] for production in productions) != list(range(actions)) or len(value["origins"]) != actions:
        found.append("%s: not each action is that of one production, with one origin" % path)
    for production in productions:
        user = grammar["action_fn_defns"][production["action"]]["kind"].get("User")
        if user and not len(user["arg_patterns"]) == len(user["arg_types"]) == len(production["symbols"]):
            found.append("%s: ActionFn(%d) has another number of arguments" % (path, production["action"]))
    return found


# ---- the check

def changes_of(table, schema):
    """Values made of the table, and changed ones, of which the table and the schema say different things; and how many there were."""
    values = list(schema_check.made_trees(table))
    found = ["made of the table: %s" % str(value)[:300] for value in values if schema_words.faults(schema, value)]
    vocabulary = sorted({key for form in all_forms(table) for part in (form.fields, form.cases, form.names) for key in part or ()})
    count = 0
    for value in schema_check.chosen_trees(table, values):
        for kind, other in schema_check.changed(value, vocabulary):
            count += 1
            if schema_check.fits(table, table.start, other) == bool(schema_words.faults(schema, other)):
                found.append("%s: %s" % (kind, str(other)[:300]))
    return len(values), count, found


def check(root, program, part):
    """Compares the schema with the others. `part` prints what differs."""
    formats, path = os.path.join(root, schema_check.FORMATS), os.path.join(root, SCHEMA)
    table = of_formats(formats)
    with open(path, encoding="utf-8") as file:
        text = file.read()
    schema = json.loads(text)
    schema_words.check(schema)
    mine = schema_check.of_schema(schema)
    print("%s: %d forms with a name" % (SCHEMA, len(mine.forms)))
    part("the schema of section 5 of docs/use/FORMATS.md and %s" % SCHEMA,
         differences(table, mine, True) + ([] if text == made(formats) else ["`tools/schema --make` prints another text"]))
    forms = schema_forms.of_definitions(root)
    part("the definitions of the form (%d) and %s" % (len(forms.forms) - len(BASIC), SCHEMA), differences(forms, mine, False))
    structs, variants, found = schema_writer.differences(root, mine)
    part("the writer's code (%d structs, %d variants) and %s" % (structs, variants, SCHEMA), found)
    values, changes, found = changes_of(table, schema)
    part("%d values made of the table, and %d changed ones" % (values, changes), found)
    if program:
        texts(root, program, schema, part)


def texts(root, program, schema, part):
    """Compares what a program prints with the schema."""
    paths = sorted(glob.glob(os.path.join(root, "examples/*.json")) + glob.glob(os.path.join(root, "crates/cases/data/*.json")))
    with concurrent.futures.ThreadPoolExecutor(os.cpu_count()) as pool:
        answers = list(pool.map(lambda path: printed(program, path, schema), paths))
    lowered_ones = [found for found in answers if found is not None and found is not SLOW]
    none = [] if lowered_ones else ["the program lowers none of them"]
    part("%d whole grammars that the program prints, of %d files, %d of which take too long" % (
        len(lowered_ones), len(paths), sum(found is SLOW for found in answers)), none + [line for found in lowered_ones for line in found])
