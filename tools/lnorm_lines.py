"""The lines of a lowered grammar, made from its whole form in JSON; by docs/use/FORMATS.md, sections 2 and 3."""
import re

ESCAPES = {"\0": "\\0", "\t": "\\t", "\r": "\\r", "\n": "\\n", "\\": "\\\\", '"': '\\"'}
ORIGINS = {"Start": "start", "LevelStep": "step", "Group": "group", "StarEmpty": "empty", "StarSome": "some", "PlusOne": "one",
           "PlusMore": "more", "QuestionSome": "some", "QuestionEmpty": "empty", "Times": "times", "Lookahead": "@L", "Lookbehind": "@R"}


def variant(value):
    """The name of a variant, and what it holds."""
    return (value, None) if isinstance(value, str) else next(iter(value.items()))


def terminal(value):
    name, held = variant(value)
    if name == "Error":
        return "error"
    if name == "Bare":
        return held
    kind, text = variant(held)
    shown = re.sub(r'[\x00-\x1f\x7f"\\]', lambda it: ESCAPES.get(it.group(), "\\u{%x}" % ord(it.group())), text)
    return 'r#"%s"#' % shown if kind == "Regex" else '"%s"' % shown


def symbol(value):
    name, held = variant(value)
    return held if name == "Nonterminal" else terminal(held)


def path(value):
    return ("::" if value["absolute"] else "") + "::".join(value["ids"])


def applied(value):
    types = ", ".join(map(type_of, value["types"]))
    return path(value["path"]) + ("<%s>" % types if types else "")


def binder(parameters):
    return "for<%s> " % ", ".join(variant(it)[1] for it in parameters) if parameters else ""


def type_of(value):
    """The text of a type."""
    name, held = variant(value)
    if name == "Tuple":
        return "(%s)" % ", ".join(map(type_of, held))
    if name == "Slice":
        return "[%s]" % type_of(held)
    if name == "Ref":
        lifetime = held["lifetime"] + " " if held["lifetime"] is not None else ""
        return "&%s%s%s" % (lifetime, "mut " if held["mutable"] else "", type_of(held["referent"]))
    if name == "Fn":
        result = "" if held["ret"] is None else " -> " + type_of(held["ret"])
        parameters = ", ".join(map(type_of, held["parameters"]))
        return "dyn %s%s(%s)%s" % (binder(held["forall"]), path(held["path"]), parameters, result)
    if name == "Associated":
        return "%s::%s" % (held["type_parameter"], held["id"])
    return {"Nominal": applied, "TraitObject": lambda it: "dyn " + applied(it), "Lifetime": str}[name](held)


def origin(value):
    name, held = variant(value)
    return "%s %d" % (held["rule"], held["alternative"]) if name == "Written" else ORIGINS[name]


def lines_of_whole(whole):
    """The lines that `lnorm` prints of a lowered grammar."""
    grammar, lines = whole["grammar"], []
    for name, entry in grammar["nonterminals"]:
        for it in entry["productions"]:
            behind = " [%s]" % origin(whole["origins"][it["action"]]) if whole["origins"] is not None else ""
            lines.append("%s = %s => ActionFn(%d);%s" % (name, ", ".join(map(symbol, it["symbols"])), it["action"], behind))
    lines += ["type %s: %s" % (name, type_of(it)) for name, it in grammar["types"]["nonterminal_types"]]
    lines += ["start %s = %s" % pair for pair in map(tuple, grammar["start_nonterminals"])]
    return "".join(line + "\n" for line in lines)
