"""The texts of the parts of trees, from their JSON; a part of wanted.py."""
import re


class Unknown(Exception):
    """What the reference implementation does not know."""


class Refused(Exception):
    """A fault: its code and its span."""


# ---- names, spans, terminals, types

ESCAPES = {"\0": "\\0", "\t": "\\t", "\r": "\\r", "\n": "\\n", "\\": "\\\\", '"': '\\"'}


def escaped(text):
    return "".join(ESCAPES.get(c) or ("\\u{%x}" % ord(c) if ord(c) < 32 or ord(c) == 127 else c) for c in text)


def place(span):
    return "%d..%d" % tuple(span)


def one(value):
    """A variant as its name and its content."""
    if isinstance(value, str):
        return value, None
    ((name, content),) = value.items()
    return name, content


def literal(value):
    name, text = one(value)
    return '"%s"' % escaped(text) if name == "Quoted" else 'r#"%s"#' % escaped(text)


def terminal(value):
    name, content = one(value)
    return literal(content) if name == "Literal" else content if name == "Bare" else "error"


def argument(name):
    return ("mut " if name["mutable"] else "") + name["name"]


def names_text(value):
    """A tuple of names and of tuples."""
    return "(" + ", ".join(argument(c) if n == "Name" else names_text(c) for n, c in map(one, value["tuples"])) + ")"


# the kinds that hold one symbol, and that symbol
WRAPPERS = {"Choose": lambda content: content, "Name": lambda content: content[1], "Tuple": lambda content: content[1]}


REPEATS = {"Star": "*", "Plus": "+", "Question": "?"}
LOOKAROUNDS = {"Lookahead": "@L", "Lookbehind": "@R"}


def sign(op):
    """That of a repeat."""
    name, count = one(op)
    return REPEATS[name] if count is None else "{%d}" % count


def path(value):
    return ("::" if value["absolute"] else "") + "::".join(value["ids"])


def applied(value):
    return path(value["path"]) + ("<" + ", ".join(map(type_text, value["types"])) + ">" if value["types"] else "")


def type_text(value):
    name, content = one(value)
    if name == "Tuple":
        return "(" + ", ".join(map(type_text, content)) + ")"
    if name == "Slice":
        return "[" + type_text(content) + "]"
    if name == "Nominal":
        return applied(content)
    if name == "TraitObject":
        return "dyn " + applied(content)
    if name == "Associated":
        return content["type_parameter"] + "::" + content["id"]
    if name == "Ref":
        lifetime = content["lifetime"] + " " if content["lifetime"] else ""
        return "&" + lifetime + ("mut " if content["mutable"] else "") + type_text(content["referent"])
    if name in ("Lifetime", "Id"):
        return content
    if name == "OfSymbol":
        return "`" + canonical(content) + "`"
    return "dyn " + function(content)


def binder(values):
    return "for<" + ", ".join(one(p)[1] for p in values) + "> " if values else ""


def function(value):
    """A function, as a type and as a bound have it."""
    returned = " -> " + type_text(value["ret"]) if value["ret"] else ""
    parameters = ", ".join(map(type_text, value["parameters"]))
    return binder(value["forall"]) + path(value["path"]) + "(" + parameters + ")" + returned


def bound_argument(value):
    name, content = one(value)
    return content if name == "Lifetime" else type_text(content) if name == "TypeParameter" else content[0] + " = " + type_text(content[1])


def bound(value):
    name, content = one(value)
    if name in ("Lifetime", "Fn"):
        return content if name == "Lifetime" else function(content)
    arguments = "<" + ", ".join(map(bound_argument, content["parameters"])) + ">" if content["parameters"] else ""
    return binder(content["forall"]) + path(content["path"]) + arguments


def clause(value):
    """A where clause as it is written: one blank more behind the colon where it bounds a type."""
    name, content = one(value)
    if name == "Lifetime":
        return content["lifetime"] + ":" + " +".join(" " + b for b in content["bounds"])
    return binder(content["forall"]) + type_text(content["ty"]) + ": " + " +".join(" " + bound(b) for b in content["bounds"])


def fields(values, open_ended):
    parts = [f["field_name"] + ": " + pattern(f["pattern"]) for f in values]
    return " { " + ", ".join(parts + [".."] * open_ended) + " }"


def pattern(value):
    name, content = one(value["kind"])
    if name in ("Enum", "TupleStruct"):
        return path(content[0]) + "(" + ", ".join(map(pattern, content[1])) + ")"
    if name == "Struct":
        return path(content[0]) + fields(content[1], content[2])
    if name == "Tuple":
        return "(" + ", ".join(map(pattern, content)) + ")"
    if name in ("Usize", "CharLiteral"):
        return str(content) if name == "Usize" else "'%s'" % content
    if name in ("String", "Choose"):
        return '"%s"' % escaped(content) if name == "String" else type_text(content)
    return path(content) if name == "Path" else {"Underscore": "_", "DotDot": ".."}[name]


# ---- symbols

def canonical(value):
    """The text of a symbol, which is the name of the rule that is made of it."""
    name, content = one(value)
    if name == "Expr":
        return "(" + " ".join(canonical(s["kind"]) for s in content["symbols"]) + ")"
    if name in ("AmbiguousId", "Nonterminal"):
        return content
    if name == "Terminal":
        return terminal(content)
    if name == "Macro":
        return content["name"] + "<" + ", ".join(canonical(s["kind"]) for s in content["args"]) + ">"
    if name == "Repeat":
        return canonical(content["symbol"]["kind"]) + sign(content["op"])
    if name == "Choose":
        return "<" + canonical(content["kind"]) + ">"
    if name == "Name":
        return argument(content[0]) + ":" + canonical(content[1]["kind"])
    if name == "Tuple":
        return names_text(content[0]) + ":" + canonical(content[1]["kind"])
    if name in LOOKAROUNDS or name == "Error":
        return LOOKAROUNDS.get(name, "error")
    raise Unknown


def mapping(value):
    name, content = one(value)
    return " => " + (terminal(content) if name == "Terminal" else "{ }")


def visibility(value):
    name, content = one(value)
    return "" if name == "Priv" else "pub(in %s) " % path(content) if name == "PubIn" else "pub(%s) " % path(content) if content else "pub "
