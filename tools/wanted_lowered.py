"""Lowered grammars, from the JSON of expanded trees; a part of wanted.py. It is written after docs/use/FORMATS.md,
docs/language/DEFINITIONS.md and the published source of lalrpop 0.23.1.
"""
import json

from wanted_forms import WRAPPERS, Refused, argument, names_text, one, pattern, place, terminal
from wanted_tokens import blocks_of, extern_enum, named_terminals, plain_rules, symbols_under
from wanted_types import LOOKAROUNDS, Types, sources, text_of

INPUT = {"Ref": {"lifetime": "'input", "mutable": False, "referent": {"Id": "str"}}}
# of each origin, as rules are marked with it, its word in the lines of `lnorm`, and its variant
ORIGINS = {"start": ("start", "Start"), "step": ("step", "LevelStep"), "group": ("group", "Group"), "empty": ("empty", "StarEmpty"),
           "filled": ("some", "StarSome"), "one": ("one", "PlusOne"), "more": ("more", "PlusMore"), "once": ("some", "QuestionSome"),
           "none": ("empty", "QuestionEmpty"), "times": ("times", "Times"), "@L": ("@L", "Lookahead"), "@R": ("@R", "Lookbehind")}


def origin_word(origin):
    """What `lnorm --origins` prints of an origin, between the brackets."""
    return "%s %d" % origin if isinstance(origin, tuple) else ORIGINS[origin][0]


# ---- the form of types, patterns and clauses

def path_data(value):
    absolute, ids = value
    return {"absolute": absolute, "ids": list(ids)}


def type_data(ty):
    form, *parts = ty
    if form in ("Tuple", "Lifetime"):
        return {form: list(map(type_data, parts[0])) if form == "Tuple" else parts[0]}
    if form == "Slice":
        return {form: type_data(parts[0])}
    if form in ("Nominal", "TraitObject"):
        return {form: {"path": path_data(parts[0]), "types": list(map(type_data, parts[1]))}}
    if form == "Associated":
        return {form: {"type_parameter": parts[0], "id": parts[1]}}
    if form == "Ref":
        return {form: {"lifetime": parts[0], "mutable": parts[1], "referent": type_data(parts[2])}}
    forall, called, parameters, ret = parts
    return {form: {"forall": [{kind: name} for kind, name in forall], "path": path_data(called),
                   "parameters": list(map(type_data, parameters)), "ret": optional(ret)}}


def optional(ty):
    return None if ty is None else type_data(ty)


def pattern_data(value, data_of):
    """A pattern, in which each type has the form that `data_of` gives it."""
    name, content = one(value["kind"])
    if name in ("Enum", "TupleStruct"):
        content = [content[0], [pattern_data(p, data_of) for p in content[1]]]
    elif name == "Struct":
        content = [content[0], [dict(f, pattern=pattern_data(f["pattern"], data_of)) for f in content[1]], content[2]]
    elif name == "Tuple":
        content = [pattern_data(p, data_of) for p in content]
    elif name == "Choose":
        content = data_of(content)
    return {"span": value["span"], "kind": name if name in ("Underscore", "DotDot") else {name: content}}


def bound_data(value, data_of):
    name, content = one(value)
    if name == "Fn":
        ret = None if content["ret"] is None else data_of(content["ret"])
        content = dict(content, parameters=list(map(data_of, content["parameters"])), ret=ret)
    elif name == "Trait":
        content = dict(content, parameters=[bound_parameter_data(p, data_of) for p in content["parameters"]])
    return {name: content}


def bound_parameter_data(value, data_of):
    name, content = one(value)
    if name == "TypeParameter":
        content = data_of(content)
    elif name == "Associated":
        content = [content[0], data_of(content[1])]
    return {name: content}


def clauses_data(value, data_of):
    """What a where clause is lowered to: one clause for each bound."""
    name, content = one(value)
    if name == "Lifetime":
        return [{"Bound": {"subject": {"Lifetime": content["lifetime"]}, "bound": {"Lifetime": b}}} for b in content["bounds"]]
    subject = data_of(content["ty"])
    made = [{"Bound": {"subject": subject, "bound": bound_data(b, data_of)}} for b in content["bounds"]]
    return [{"Forall": {"binder": content["forall"], "clause": c}} for c in made] if content["forall"] else made


# ---- terminals

def terminal_order(value):
    """What terminals are sorted by: quoted literals, regular expressions, bare names, the error terminal; each by its bytes."""
    name, content = one(value)
    kind, text = one(content) if name == "Literal" else (name, content or "")
    return ("Quoted", "Regex", "Bare", "Error").index(kind), text.encode()


def terminal_of(found):
    """The terminal that a key is of."""
    name, *parts = found
    return {name: {parts[0]: parts[1]}} if name == "Literal" else {name: parts[0]} if name == "Bare" else name


def terminal_rows(pairs):
    return sorted(([t, value] for t, value in pairs), key=lambda row: terminal_order(row[0]))


def name_rows(pairs):
    return sorted(([name, value] for name, value in pairs), key=lambda row: row[0].encode())


def token_pattern(index, span):
    """The pattern of the token of an entry, as conversions have it."""
    parts = [{"span": span, "kind": {"Usize": index}}, {"span": span, "kind": {"Choose": INPUT}}]
    return {"span": span, "kind": {"TupleStruct": [path_data((False, ["Token"])), parts]}}


def conversions_of(tree):
    """The terminals of conversions or entries, with the patterns of their tokens."""
    enum = extern_enum(tree)
    if enum:
        return [(c["from"], c["to"]) for c in enum["conversions"]]
    entries = [e for t in blocks_of(tree, "InternToken") for e in t["match_entries"]]
    return [(t, token_pattern(i, tree["span"])) for i, e in enumerate(entries) for t in named_terminals([e["user_name"]])]


def tokenizer_data(value):
    return {"match_entries": value["match_entries"], "dfa": {"code": value["code"]}}


# ---- symbols and actions

def symbol_of(value):
    """A symbol as trees have it: whether it is a terminal, and that, or a name."""
    name, content = one(value["kind"])
    if name in WRAPPERS:
        return symbol_of(WRAPPERS[name](content))
    return (True, content) if name == "Terminal" else (True, "Error") if name == "Error" else (False, content)


def symbol_text(symbol):
    is_terminal, name = symbol
    return terminal(name) if is_terminal else name


def symbol_data(symbol):
    is_terminal, name = symbol
    return {"Terminal" if is_terminal else "Nonterminal": name}


def source_name(name):
    """That of a named symbol, or of a tuple of names, as it is displayed."""
    return argument(name[1]) if name[0] == "Name" else names_text(name[1])


def with_sources(code, named, parts, names, span):
    """The code with the names of its sources in the place of each `<>`."""
    pieces = code.split("<>")
    if named or len(pieces) < 3:
        return ", ".join(names).join(pieces)
    if len(pieces) - 1 != len(parts):
        raise Refused("F54 " + (place([parts[0][2]["span"][0], parts[-1][2]["span"][1]]) if parts else place(span)))
    return "".join(before + name for before, name in zip(pieces, names)) + pieces[-1]


def name_data(name):
    return {"Name": {"mutable": False, "name": name}}


def action_data(types, values, ty, action, span):
    """An action with the patterns and the types of its arguments, its own type, and its code; a lookaround has none of these."""
    if action in LOOKAROUNDS:
        return {"fallible": False, "ret_type": type_data(ty), "kind": {"Lookaround": action}}
    named, parts = sources(values)
    patterns = [name_data("_") for _ in values]
    for count, (i, name, _) in enumerate(parts):
        patterns[i] = {name[0]: name[1]} if named else name_data("%s%d" % (types.prefix, count))
    names = [name[1]["name"] if name[0] == "Name" else source_name(name) for name in (one(patterns[i]) for i, _, _ in parts)]
    code = one(action)[1] if action else "()" if ty == ("Tuple", ()) else "<>" if len(parts) == 1 else "(<>)"
    user = {"arg_patterns": patterns, "arg_types": [type_data(types.of_kind(s["kind"])) for s in values],
            "code": with_sources(code, named, parts, names, span)}
    return {"fallible": bool(action) and one(action)[0] == "Fallible", "ret_type": type_data(ty), "kind": {"User": user}}


def algorithm_data(values):
    """What the attributes of a grammar ask for."""
    codes = {"table_driven": "TableDriven", "recursive_ascent": "RecursiveAscent", "test_all": "TestAll"}
    asked = [codes[a["id"]] for a in values if a["id"] in codes]
    return {"lalr": any(a["id"] == "LALR" for a in values), "codegen": (["TableDriven"] + asked)[-1]}


# ---- the whole

USIZE = {"Nominal": {"path": path_data((False, ["usize"])), "types": []}}
# the action that the copy of a lowered grammar gets: no tree has one of its kind
CALLED = [{"Original": {"Nonterminal": "Y"}}, {"Inlined": [44, [{"Nonterminal": "A"}, {"Terminal": {"Bare": "b"}}]]}]
INLINE = {"fallible": False, "ret_type": USIZE, "kind": {"Inline": {"action": 22, "symbols": CALLED}}}


def json_line(grammar, origins):
    return json.dumps({"grammar": grammar, "origins": origins}, sort_keys=True, separators=(",", ":"), ensure_ascii=False) + "\n"


class Lowered:
    """A lowered grammar: its nonterminals by their names, its actions, its start symbols."""

    def __init__(self, tree, roots=()):
        self.types, self.tree, self.roots = Types(tree).infer(), tree, roots
        self.found, self.actions, self.origins, self.starts = {}, [], [], {}
        # of each nonterminal the symbols and the origin of its productions
        self.sources = {}
        for rule in plain_rules(tree):
            if rule["visibility"] != "Priv":
                self.start(rule)
        for rule in plain_rules(tree):
            ty = self.types.known[rule["name"]]
            made = [self.production(rule["name"], a["expr"]["symbols"], ty, a["action"], a["span"], a.get("origin"))
                    for a in rule["alternatives"]]
            self.sources.setdefault(rule["name"], [])
            self.found[rule["name"]] = (rule, ty, rule["attributes"], made)
        symbols = [s for r in plain_rules(tree) for a in r["alternatives"] for s in symbols_under(a["expr"]["symbols"])]
        self.recovers = any(s["kind"] == "Error" for s in symbols)

    def production(self, name, values, ty, action, span, origin):
        """A production as its line, and as data."""
        number, symbols = len(self.actions), list(map(symbol_of, values))
        self.actions.append(action_data(self.types, values, ty, action, span))
        self.origins.append(origin)
        self.sources.setdefault(name, []).append((symbols, origin))
        data = {"action": number, "nonterminal": name, "span": span, "symbols": list(map(symbol_data, symbols))}
        return "%s = %s => ActionFn(%d);" % (name, ", ".join(map(symbol_text, symbols)), number), data

    def start(self, rule):
        name, ty = self.tree["prefix"] + rule["name"], self.types.known[rule["name"]]
        if name in self.types.known:
            raise Refused("F55 " + place(rule["span"]))
        self.types.known[name] = ty
        of_rule = {"span": rule["span"], "kind": {"Nonterminal": rule["name"]}}
        self.found[name] = (rule, ty, [], [self.production(name, [of_rule], ty, None, rule["span"], "start")])
        self.starts[rule["name"]] = name

    # ---- as JSON

    def type_of(self, value):
        """The form of a type that is written."""
        return type_data(self.types.plain(value))

    def types_data(self):
        types = self.types
        fault = type_data(types.of_fault("ErrorRecovery"))
        listed = [(terminal_of(t), type_data(ty)) for t, ty in types.terminals.items()] + [("Error", fault)]
        return {"terminal_token_type": type_data(types.token), "terminal_loc_type": optional(types.location),
                "error_type": optional(types.stated_error), "error_recovery_type": fault,
                "parse_error_type": type_data(types.of_fault("ParseError")), "terminal_types": terminal_rows(listed),
                "nonterminal_types": name_rows((name, type_data(ty)) for name, ty in types.known.items())}

    def nonterminals_data(self):
        return name_rows((name, {"visibility": rule["visibility"], "span": rule["span"], "attributes": marks,
                                 "productions": [data for _, data in made]})
                         for name, (rule, _, marks, made) in self.found.items())

    def data(self):
        tree, conversions = self.tree, conversions_of(self.tree)
        terminals = [t for t, _ in conversions] + ["Error"] * self.recovers
        return {"prefix": tree["prefix"], "algorithm": algorithm_data(tree["attributes"]), "uses_error_recovery": self.recovers,
                "start_nonterminals": name_rows(self.starts.items()), "uses": blocks_of(tree, "Use"),
                "type_parameters": tree["type_parameters"],
                "parameters": [{"name": p["name"], "ty": self.type_of(p["ty"])} for p in tree["parameters"]],
                "where_clauses": [c for w in tree["where_clauses"] for c in clauses_data(w, self.type_of)],
                "intern_token": next(map(tokenizer_data, blocks_of(tree, "InternToken")), None), "action_fn_defns": self.actions,
                "terminals": {"all": terminals, "bits": terminal_rows((t, n) for n, t in enumerate(terminals))},
                "nonterminals": self.nonterminals_data(), "types": self.types_data(), "module_attributes": tree["module_attributes"],
                "conversions": terminal_rows((t, pattern_data(p, self.type_of)) for t, p in conversions)}

    def origins_data(self):
        return [{"Written": {"rule": o[0], "alternative": o[1]}} if isinstance(o, tuple) else ORIGINS[o][1] for o in self.origins]

    def json(self, origins=False):
        """The whole of it in one line."""
        return json_line(self.data(), self.origins_data() if origins else None)

    # ---- as lines

    def copied(self):
        """The JSON, and what is asked of it, with some parameters and an action more."""
        data = self.data()
        data["parameters"] = data["parameters"] + [{"name": name, "ty": USIZE} for name in ("n", "m")]
        data["type_parameters"] = data["type_parameters"] + [{"Lifetime": "'input"}, {"Id": "T"}]
        data["action_fn_defns"] = data["action_fn_defns"] + [INLINE]
        names = [p["name"] for p in data["parameters"]]
        count = sum("Id" in p for p in data["type_parameters"])
        text = json_line(data, None) + "parameters %s, and %d type\n" % (", ".join(names), count)
        for name in ("S", "U"):
            made = [shown for shown, _ in self.found[name][3]] if name in self.found else []
            ty = "Some(%s)" % text_of(self.found[name][1]) if name in self.found else "None"
            text += "productions of %s of type %s: [%s]\n" % (name, ty, ", ".join(made))
        conversions = conversions_of(self.tree)
        text += "%d terminals with a number\n" % (len({str(t) for t, _ in conversions}) + self.recovers)
        text += "".join("pattern of %s: %s\n" % (terminal(t), pattern(p)) for t, p in conversions)
        failing = [" %d" % n for n, action in enumerate(self.actions) if action["fallible"]]
        return text + "actions that may fail" + "".join(failing) + "\n"

    def counts(self):
        """How many productions each nonterminal has."""
        return "".join("%s: %d\n" % (n, len(self.found[n][3])) for n in sorted(self.found, key=str.encode))

    def marked(self, name):
        """The productions of a nonterminal, each with its origin in a word."""
        for (line, _), (_, origin) in zip(self.found[name][3], self.sources[name]):
            yield line, origin_word(origin)

    def traced(self):
        """The nonterminals, with what is kept beside them for the way back."""
        text = ""
        for name in sorted(self.found, key=str.encode):
            text += "%s, a written rule: %s\n" % (name, str(name in self.roots).lower())
            text += "".join("    %s %s\n" % pair for pair in self.marked(name))
        return text

    def lines(self, origins=False):
        """What the program `lnorm` prints."""
        names = sorted(self.found, key=str.encode)
        text = "".join(line + (" [%s]\n" % origin if origins else "\n") for n in names for line, origin in self.marked(n))
        text += "".join("type %s: %s\n" % (n, text_of(self.found[n][1])) for n in names)
        return text + "".join("start %s = %s\n" % (n, self.starts[n]) for n in sorted(self.starts, key=str.encode))
