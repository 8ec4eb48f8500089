"""The pass on tokens, on the JSON of a tree; a part of wanted.py.

It is written after the published source of lalrpop 0.23.1, but the lexer is an argument: `CheckOnly` rejects what is no pattern, and
`Scripted` rejects what its lists name.
"""
import re

from wanted_forms import WRAPPERS, Refused, Unknown, one, place
from wanted_patterns import is_pattern

KNOWN_ATTRIBUTES = ("LALR", "table_driven", "recursive_ascent", "test_all")


def blocks_of(tree, name):
    return [c for n, c in map(one, tree["items"]) if n == name]


def extern_enum(tree):
    """The first enum that an extern block has."""
    enums = [b["enum_token"] for b in blocks_of(tree, "ExternToken") if b["enum_token"]]
    return enums[0] if enums else None


def plain_rules(tree):
    return blocks_of(tree, "Nonterminal")


def inner_symbols(name, content):
    if name in WRAPPERS:
        return [WRAPPERS[name](content)]
    return {"Expr": lambda: content["symbols"], "Repeat": lambda: [content["symbol"]],
            "Macro": lambda: content["args"]}.get(name, lambda: [])()


def symbols_under(values):
    """The symbols, those inside of others before them."""
    for s in values:
        name, content = one(s["kind"])
        yield from symbols_under(inner_symbols(name, content))
        yield s


# ---- whether a tree is expanded

def is_plain(kind):
    """Whether a symbol is a terminal other than the error terminal, a nonterminal or `!`, under wrappers."""
    name, content = one(kind)
    if name in WRAPPERS:
        return is_plain(WRAPPERS[name](content)["kind"])
    return name in ("Nonterminal", "Error") or name == "Terminal" and one(content)[0] != "Error"


def names_in(kind):
    name, content = one(kind)
    if name in WRAPPERS:
        return names_in(WRAPPERS[name](content)["kind"])
    return [content] if name == "Nonterminal" else []


def symbols_in(value):
    """The symbols whose types stand in that JSON."""
    if isinstance(value, dict):
        return [value["OfSymbol"]] if "OfSymbol" in value else [k for v in value.values() for k in symbols_in(v)]
    return [k for v in value for k in symbols_in(v)] if isinstance(value, list) else []


def named_terminals(entries):
    """The terminals that mappings name; what is skipped names none."""
    return [one(m)[1] for m in entries if one(m)[0] == "Terminal"]


def written_in(block):
    """What the items of a match block are mapped to; of `_` there is nothing."""
    return [m for g in block["contents"] for _, m, _ in map(item_parts, g["items"])]


def mappings_of(tree):
    written = [m for b in blocks_of(tree, "MatchToken") for m in written_in(b) if m]
    return written + [e["user_name"] for t in blocks_of(tree, "InternToken") for e in t["match_entries"]]


def terminals_of_entries(tree):
    """The terminals that the entries name, or where there are none yet, that they will name: what the match block maps to, and
    the literals used, where it has a catch-all or there is none."""
    interns, matches = blocks_of(tree, "InternToken"), blocks_of(tree, "MatchToken")
    if interns:
        return named_terminals([e["user_name"] for e in interns[0]["match_entries"]])
    written = written_in(matches[0]) if matches else [None]
    let_in = [t for t, _ in terminals_used(tree) if one(t)[0] == "Literal"] if None in written else []
    return named_terminals([m for m in written if m]) + let_in


def is_expanded(tree):
    rules, externs = plain_rules(tree), blocks_of(tree, "ExternToken")
    alternatives = [a for r in rules for a in r["alternatives"]]
    declared = [k for r in rules for k in symbols_in(r["type_decl"])]
    kinds = [s["kind"] for a in alternatives for s in a["expr"]["symbols"]]
    names = [r["name"] for r in rules]
    used = [n for k in kinds + declared for n in names_in(k)]
    enums = [b["enum_token"] for b in externs if b["enum_token"]]
    matches, interns = blocks_of(tree, "MatchToken"), blocks_of(tree, "InternToken")
    converted = [c["from"] for e in enums for c in e["conversions"]]
    return (not any(r["args"] for r in rules) and not any(a["condition"] for a in alternatives)
            and all(map(is_plain, kinds)) and len(set(names)) == len(names) and set(used) <= set(names)
            and "Error" not in converted + named_terminals(mappings_of(tree))
            and max(len(enums), len(matches), len(interns)) < 2 and not (enums and matches + interns)
            and not symbols_in([tree["parameters"], tree["where_clauses"], externs]) and all(map(is_plain, declared))
            and all(a["id"] in KNOWN_ATTRIBUTES for a in tree["attributes"]))


# ---- the entries

def item_parts(value):
    """The literal of a match item, what it is mapped to, and its span; of `_` the span alone."""
    name, content = one(value)
    if name == "CatchAll":
        return None, None, content
    if name == "Unmapped":
        return content[0], {"Terminal": {"Literal": content[0]}}, content[1]
    return content


def entry_of(precedence, literal, mapping):
    quoted = one(literal)[0] == "Quoted"
    return {"precedence": 2 * precedence + quoted, "match_literal": literal, "user_name": mapping}


def literal_key(literal):
    name, text = one(literal)
    return name, text.encode()


def terminal_key(value):
    """Literals, quoted ones first, and then bare names."""
    name, content = one(value)
    return (0,) + literal_key(content) if name == "Literal" else (1, content.encode())


def entry_key(entry):
    mapping = one(entry["user_name"])
    named = (0, terminal_key(mapping[1])) if mapping[0] == "Terminal" else (1,)
    return entry["precedence"], literal_key(entry["match_literal"]), named


class Entries:
    """The entries, the terminals that they name, where their literals stand, and the precedence of the catch-all."""

    def __init__(self, block):
        self.found, self.names, self.places, self.catch_all = [], [], {}, None if block else 0
        groups = block["contents"] if block else []
        for before, group in enumerate(groups):
            for value in group["items"]:
                self.add_item(len(groups) - before, *item_parts(value))

    def add_item(self, precedence, literal, mapping, span):
        if literal is None:
            self.catch_all = precedence
            return
        if literal_key(literal) in self.places:
            raise Refused("F38 " + place(span))
        for named in named_terminals([mapping]):
            if named in self.names:
                raise Refused("F39 " + place(span))
            self.names.append(named)
        self.places[literal_key(literal)] = span
        self.found.append(entry_of(precedence, literal, mapping))

    def use(self, value, span):
        """A terminal that an alternative uses."""
        if value in self.names:
            return
        name, literal = one(value)
        if name != "Literal" or self.catch_all is None:
            raise Refused("F40 " + place(span))
        self.names.append(value)
        self.places[literal_key(literal)] = span
        self.found.append(entry_of(self.catch_all, literal, {"Terminal": value}))


def terminals_used(tree):
    """The terminals of the alternatives, each with its span."""
    values = [s for r in plain_rules(tree) for a in r["alternatives"] for s in a["expr"]["symbols"]]
    for s in values:
        name, content = one(s["kind"])
        while name in WRAPPERS:
            s = WRAPPERS[name](content)
            name, content = one(s["kind"])
        if name == "Terminal":
            yield content, s["span"]


# ---- lexers

class NoMemory(Exception):
    """The lexer has none for what it is asked."""


class CheckOnly:
    """Refuses what is no pattern."""

    def find_room(self, text):
        """There is always memory for the regex of a text."""

    def read(self, text):
        """Whether the text is a pattern."""
        return is_pattern(text)

    def refusal(self, literals):
        return None

    def code(self, precedences):
        return []


class Scripted:
    """Refuses what its lists name: texts that are no patterns, texts whose regexes have a feature, ambiguous pairs of indexes; it has
    no memory for some texts, and none for an automaton of too many regexes."""

    def __init__(self, words):
        self.bad, self.features, self.pairs, self.unread, self.largest = [], [], [], [], 2**64
        if len(words) % 2:
            raise Unknown
        for option, value in zip(words[::2], words[1::2]):
            if option == "--ambiguous" and re.fullmatch("[0-9]+,[0-9]+", value):
                self.pairs.append(tuple(map(int, value.split(","))))
            elif option in ("--bad", "--feature-of", "--unread"):
                {"--bad": self.bad, "--feature-of": self.features, "--unread": self.unread}[option].append(value)
            elif option == "--largest" and re.fullmatch("[0-9]+", value):
                self.largest = int(value)
            else:
                raise Unknown

    def find_room(self, text):
        if text in self.unread:
            raise NoMemory

    def read(self, text):
        return text not in self.bad

    def refusal(self, literals):
        """The fault of building, and the index of the literal where it stands."""
        for i, value in enumerate(literals):
            if one(value)[1] in self.features:
                return "F43 ", i
        for i, j in self.pairs:
            if i != j and max(i, j) < len(literals):
                return "F44 ", i
        return None

    def code(self, precedences):
        if len(precedences) > self.largest:
            raise NoMemory
        return precedences


# ---- the pass

def check_conversions(tree, conversions):
    known = []
    for c in conversions:
        if c["from"] in known:
            raise Refused("F39 " + place(c["span"]))
        known.append(c["from"])
    for value, span in terminals_used(tree):
        if value not in known:
            raise Refused("F41 " + place(span))


def read_entries(entries, lexer):
    """Reads the regular expressions in order, and asks for an automaton."""
    literals = [e["match_literal"] for e in entries.found]
    for value in literals:
        lexer.find_room(one(value)[1])
        if one(value)[0] == "Regex" and not lexer.read(one(value)[1]):
            raise Refused("F42 " + place(entries.places[literal_key(value)]))
    refusal = lexer.refusal(literals)
    if refusal:
        raise Refused(refusal[0] + place(entries.places[literal_key(literals[refusal[1]])]))
    return lexer.code([e["precedence"] for e in entries.found])


def check_tokens(tree, lexer):
    """Beside an extern enum the pass looks for faults alone; else the tokenizer and what goes with it are put in."""
    enum = extern_enum(tree)
    if enum:
        check_conversions(tree, enum["conversions"])
        return
    blocks = blocks_of(tree, "MatchToken")
    entries = Entries(blocks[0] if blocks else None)
    for value, span in terminals_used(tree):
        entries.use(value, span)
    entries.found.sort(key=entry_key)
    code = read_entries(entries, lexer)
    if {"Lifetime": "'input"} in tree["type_parameters"]:
        raise Refused("F45 " + place(tree["span"]))
    if any(p["name"] == "input" for p in tree["parameters"]):
        raise Refused("F46 " + place(tree["span"]))
    tree["items"].append({"InternToken": {"match_entries": entries.found, "code": code}})
    tree["type_parameters"].insert(0, {"Lifetime": "'input"})
    text = {"Ref": {"lifetime": "'input", "mutable": False, "referent": {"Id": "str"}}}
    tree["parameters"].append({"name": "input", "ty": text})
