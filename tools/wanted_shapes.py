"""Whether a text is a tree, by the table of docs/use/FORMATS.md, and the tree by its `Debug`; a part of wanted.py.

In the tables a `name` is a text that `Debug` shows as it is.
"""
import json
import math
import re

from wanted_forms import escaped, literal, mapping, terminal

FIELDS = """
Grammar: prefix text, span Span, type_parameters [TypeParameter], parameters [Parameter], where_clauses [WhereClause], items
    [Item], attributes [Attribute], module_attributes [text]
Parameter: name text, ty Type
MatchToken: contents [MatchContents], span Span
MatchContents: items [MatchItem]
ExternToken: span Span, associated_types [AssociatedType], enum_token EnumToken?
AssociatedType: type_span Span, type_name text, type_ref Type
EnumToken: type_name Type, type_span Span, conversions [Conversion]
Conversion: span Span, attributes [Attribute], from Terminal, to Pattern
Rule: visibility Visibility, name name, attributes [Attribute], span Span, args [name], type_decl Type?, alternatives
    [Alternative]
Alternative: span Span, expr Symbols, condition Condition?, action Code?, attributes [Attribute]
Condition: span Span, lhs name, rhs text, op Operator
Attribute: id_span Span, id text, arg Argument
Symbol: span Span, kind Kind
Symbols: symbols [Symbol]
Call: name name, args [Symbol]
Repeat: op Repeated, symbol Symbol
Name: mutable bool, name text
Tuple: tuples [ArgPattern]
Pattern: span Span, kind PatternKind
FieldPattern: field_span Span, field_name text, pattern Pattern
Path: absolute bool, ids [text]
"""

VARIANTS = """
WhereClause: Lifetime {lifetime name, bounds [name]} | OfType {forall [TypeParameter], ty Type, bounds [Bound]}
Bound: Lifetime (name) | Fn {forall [TypeParameter], path Path, parameters [Type], ret Type?} | Trait {forall [TypeParameter],
    path Path, parameters [BoundParameter]}
BoundParameter: Lifetime (name) | TypeParameter (Type) | Associated (text, Type)
Item: MatchToken (MatchToken) | ExternToken (ExternToken) | Nonterminal (Rule) | Use (text)
MatchItem: CatchAll (Span) | Unmapped (Literal, Span) | Mapped (Literal, Mapping, Span)
Mapping: Terminal (Terminal) | Skip
Visibility: Pub (Path?) | PubIn (Path) | Priv
Operator: Equals | NotEquals | Match | NotMatch
Argument: Empty | Paren ([Attribute]) | Equal (text)
Code: User (text) | Fallible (text) | Lookahead | Lookbehind
Kind: Expr (Symbols) | AmbiguousId (text) | Terminal (Terminal) | Nonterminal (name) | Macro (Call) | Repeat (Repeat) | Choose
    (Symbol) | Name (Name, Symbol) | Tuple (Tuple, Symbol) | Lookahead | Lookbehind | Error
Repeated: Star | Plus | Question | Times (short)
ArgPattern: Name (Name) | Tuple (Tuple)
Terminal: Literal (Literal) | Bare (text) | Error
Literal: Quoted (text) | Regex (text)
PatternKind: Enum (Path, [Pattern]) | Struct (Path, [FieldPattern], bool) | Path (Path) | Tuple ([Pattern]) | TupleStruct
    (Path, [Pattern]) | Usize (number) | Underscore | DotDot | Choose (Type) | CharLiteral (text) | String (text)
Type: Tuple ([Type]) | Slice (Type) | Nominal {path Path, types [Type]} | Ref {lifetime name?, mutable bool, referent Type} |
    TraitObject {path Path, types [Type]} | Lifetime (name) | Id (text) | Fn {forall [TypeParameter], path Path, parameters
    [Type], ret Type?} | OfSymbol (Kind)
TypeParameter: Lifetime (name) | Id (text)
"""


def fields_of(text):
    return dict(pair.split(" ") for pair in text.split(", "))


def variant_of(text):
    """The name, and what it holds: nothing, a list of shapes, or fields."""
    name, _, content = text.partition(" ")
    if not content:
        return name, None
    return name, fields_of(content[1:-1]) if content[0] == "{" else content[1:-1].split(", ")


def table(text, read):
    rows = re.sub("\n +", " ", text.strip()).splitlines()
    return {name: read(content) for name, content in (row.split(": ", 1) for row in rows)}


STRUCTS = table(FIELDS, fields_of)
ENUMS = table(VARIANTS, lambda content: dict(map(variant_of, content.split(" | "))))
PLAIN = {
    "text": lambda v: isinstance(v, str),
    "name": lambda v: isinstance(v, str),
    "bool": lambda v: isinstance(v, bool),
    "number": lambda v: type(v) is int and 0 <= v < 2**64,
    "short": lambda v: type(v) is int and 0 <= v < 2**16,
    "Span": lambda v: isinstance(v, list) and len(v) == 2 and all(map(PLAIN["number"], v)),
}


def has_shape(shape, value):
    if shape[-1] == "?":
        return value is None or has_shape(shape[:-1], value)
    if shape[0] == "[":
        return isinstance(value, list) and all(has_shape(shape[1:-1], v) for v in value)
    if shape in PLAIN:
        return PLAIN[shape](value)
    return has_fields(STRUCTS[shape], value) if shape in STRUCTS else is_variant(ENUMS[shape], value)


def has_fields(fields, value):
    return isinstance(value, dict) and set(value) == set(fields) and all(has_shape(s, value[n]) for n, s in fields.items())


def is_variant(variants, value):
    if isinstance(value, str):
        return variants.get(value, value) is None
    if not isinstance(value, dict) or len(value) != 1:
        return False
    ((name, content),) = value.items()
    held = variants.get(name)
    if not held:
        return False
    if isinstance(held, dict):
        return has_fields(held, content)
    if len(held) == 1:
        return has_shape(held[0], content)
    return isinstance(content, list) and len(content) == len(held) and all(map(has_shape, held, content))


def depth(text):
    """How deep arrays and objects are nested."""
    deepest = now = 0
    for sign in re.sub(r'"(\\.|[^"\\])*"', "", text):
        now += (sign in "[{") - (sign in "]}")
        deepest = max(deepest, now)
    return deepest


def no_number(text):
    raise ValueError(text)


def in_range(text):
    """A number past the range of floats is none."""
    value = float(text)
    return value if math.isfinite(value) else no_number(text)


def natural(text):
    """A number with a sign is none that a tree has."""
    value = in_range(text)
    return int(text) if text[0] != "-" else value


def value_of(data):
    """The value of the JSON text that the bytes are; where they are none that is read, a `ValueError`."""
    text = data.decode("utf-8")
    if depth(text) > 127:
        raise ValueError("too deep")
    value = json.loads(text, parse_int=natural, parse_float=in_range, parse_constant=no_number, object_pairs_hook=members)
    json.dumps(value, ensure_ascii=False).encode("utf-8")
    return value


def members(pairs):
    """Of a key that stands twice the last value counts; each has to be a text."""
    for key, value in pairs:
        json.dumps([key, value], ensure_ascii=False).encode("utf-8")
    return dict(pairs)


def tree_of(data):
    """The tree that the bytes are, or none."""
    try:
        tree = value_of(data)
    except ValueError:
        return None
    return tree if has_shape("Grammar", tree) else None


def readings(data):
    """What two readers make of the bytes, and of ten that are damaged."""
    try:
        value_of(data)
        told = "read"
    except UnicodeDecodeError:
        told = "no UTF-8"
    except ValueError:
        told = "refused"
    return told + "\ndamaged: 10 of 10 alike\n"


def beginnings(data):
    """What they make of its beginnings."""
    read = 0
    for end in range(len(data)):
        read += readings(data[:end]).startswith("read")
    return "beginnings: %d of %d alike, %d read\n" % (len(data), len(data), read)


def cut_trees(data):
    """On how many of its beginnings `lnorm` reports that they are no tree."""
    return "beginnings: %d of %d are no tree\n" % (sum(tree_of(data[:end]) is None for end in range(len(data))), len(data))


# ---- a tree by its `Debug`

OTHER_NAMES = {"Rule": "NonterminalData", "Symbols": "ExprSymbol", "Call": "MacroSymbol", "Repeat": "RepeatSymbol"}
SHOWN = {
    "text": lambda v: '"%s"' % escaped(v),
    "name": str,
    "bool": lambda v: str(v).lower(),
    "number": str,
    "short": str,
    "Span": lambda v: "Span(%d, %d)" % tuple(v),
    "Terminal": lambda v: terminal(v),
    "Literal": literal,
    "Mapping": lambda v: mapping(v)[4:],
}


def debug(shape, value):
    if shape[-1] == "?":
        return "None" if value is None else "Some(%s)" % debug(shape[:-1], value)
    if shape[0] == "[":
        return "[%s]" % ", ".join(debug(shape[1:-1], v) for v in value)
    if shape in SHOWN:
        return SHOWN[shape](value)
    if shape in STRUCTS:
        return OTHER_NAMES.get(shape, shape) + debug_fields(STRUCTS[shape], value)
    if isinstance(value, str):
        return value
    ((name, content),) = value.items()
    if name == "InternToken":
        return "InternToken(%s)" % debug_tokenizer(content)
    held = ENUMS[shape][name]
    if isinstance(held, dict):
        return name + debug_fields(held, content)
    parts = map(debug, held, content if len(held) > 1 else [content])
    return "%s(%s)" % (name, ", ".join(parts))


def debug_fields(fields, value):
    return " { %s }" % ", ".join(name + ": " + debug(shape, value[name]) for name, shape in fields.items())


ENTRY = {"precedence": "number", "match_literal": "Literal", "user_name": "Mapping"}


def debug_tokenizer(value):
    entries = ", ".join("MatchEntry" + debug_fields(ENTRY, e) for e in value["match_entries"])
    return "InternToken { match_entries: [%s], dfa: Dfa { code: %s } }" % (entries, value["code"])


def debug_tree(tree):
    return debug("Grammar", tree) + "\n"
