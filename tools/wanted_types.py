"""The types of terminals and rules, from the JSON of an expanded tree; a part of wanted.py.

It is written after docs/use/FAULTS.md and docs/language/DEFINITIONS.md, and if those say nothing after the published source of lalrpop
0.23.1: rounds in item order, then the alternatives are compared, then tuples of names are compared with the types.

A type is a tuple of its form and its parts, so that two of one text differ: a path `T::Id` and an associated type.
"""
from wanted_forms import WRAPPERS, Refused, Unknown, canonical, one, path, place
from wanted_tokens import blocks_of, extern_enum, plain_rules, terminals_of_entries

LOOKAROUNDS = ("Lookahead", "Lookbehind")


def key(value):
    """A terminal as a key."""
    name, content = one(value)
    return (name,) + one(content) if name == "Literal" else (name, content)


def path_key(value):
    return value["absolute"], tuple(value["ids"])


def named(*ids, types=()):
    return "Nominal", (False, ids), tuple(types)


def bare_or_tuple(types):
    return types[0] if len(types) == 1 else ("Tuple", tuple(types))


def text_of(ty):
    form, *parts = ty
    if form == "Tuple":
        return "(" + ", ".join(map(text_of, parts[0])) + ")"
    if form == "Slice":
        return "[" + text_of(parts[0]) + "]"
    if form in ("Nominal", "TraitObject"):
        whole = path({"absolute": parts[0][0], "ids": parts[0][1]})
        arguments = "<" + ", ".join(map(text_of, parts[1])) + ">" if parts[1] else ""
        return ("dyn " if form == "TraitObject" else "") + whole + arguments
    if form == "Associated":
        return parts[0] + "::" + parts[1]
    if form == "Ref":
        return "&" + (parts[0] + " " if parts[0] else "") + ("mut " if parts[1] else "") + text_of(parts[2])
    if form == "Lifetime":
        return parts[0]
    forall, whole, parameters, ret = parts
    text = "dyn " + ("for<" + ", ".join(name for _, name in forall) + "> " if forall else "") + path({"absolute": whole[0], "ids": whole[1]})
    return text + "(" + ", ".join(map(text_of, parameters)) + ")" + (" -> " + text_of(ret) if ret else "")


def chosen_types(value):
    """The types that a pattern chooses, from left to right."""
    name, content = one(value["kind"])
    if name == "Choose":
        return [content]
    inner = {"Enum": lambda: content[1], "TupleStruct": lambda: content[1], "Tuple": lambda: content,
             "Struct": lambda: [f["pattern"] for f in content[1]]}.get(name, lambda: [])()
    return [t for p in inner for t in chosen_types(p)]


def sources(values):
    """The symbols that give the values: whether they have names, and each with its place, its name and what is inside."""
    with_names = [(i,) + one(s["kind"]) for i, s in enumerate(values) if one(s["kind"])[0] in ("Name", "Tuple")]
    if with_names:
        return True, [(i, (name, content[0]), content[1]) for i, name, content in with_names]
    chosen = [(i, None, one(s["kind"])[1]) for i, s in enumerate(values) if one(s["kind"])[0] == "Choose"]
    return False, chosen or [(i, None, s) for i, s in enumerate(values)]


class Types:
    """The types of the rules and of the terminals of an expanded tree; the first fault, where one stands."""

    def __init__(self, tree):
        enum, blocks = extern_enum(tree), blocks_of(tree, "ExternToken")
        declared = {t["type_name"]: t["type_ref"] for b in blocks[:1] for t in reversed(b["associated_types"])}
        self.prefix, self.rules = tree["prefix"], plain_rules(tree)
        self.parameters = [c for n, c in map(one, tree["type_parameters"]) if n == "Id"]
        self.known, self.terminals = {}, {}
        text = ("Ref", "'input", False, named("str"))
        if enum:
            self.location = self.plain(declared["Location"]) if "Location" in declared else None
            self.token = self.plain(enum["type_name"])
            for c in enum["conversions"]:
                types = [self.plain(t) for t in chosen_types(c["to"])]
                if types:
                    self.terminals.setdefault(key(c["from"]), bare_or_tuple(types))
        else:
            self.location, self.token = named("usize"), named("Token", types=[("Lifetime", "'input")])
            self.terminals = {key(t): text for t in terminals_of_entries(tree)}
        self.stated_error = self.plain(declared["Error"]) if "Error" in declared else None
        self.error = self.stated_error or ("Ref", "'static", False, named("str"))

    def of_terminal(self, value):
        return self.of_fault("ErrorRecovery") if value == "Error" else self.terminals.get(key(value), self.token)

    def of_fault(self, name):
        return named(self.prefix + "lalrpop_util", name, types=[self.location or ("Tuple", ()), self.token, self.error])

    # ---- types that are written

    def plain(self, ty):
        """A type as it is written, which holds no symbol."""
        return self.read(ty, lambda _: None, ())

    def lowered(self, ty):
        """A declared type; None where a symbol in it has none yet."""
        return self.read(ty, self.of_kind, self.parameters)

    def read(self, ty, of_symbol, parameters):
        name, content = one(ty)
        if name in ("Id", "Lifetime"):
            return named(content) if name == "Id" else ("Lifetime", content)
        if name == "OfSymbol":
            return of_symbol(content)
        if name == "Nominal" and len(content["path"]["ids"]) == 2 and content["path"]["ids"][0] in parameters:
            return ("Associated",) + tuple(content["path"]["ids"])
        parts = {"Tuple": lambda: content, "Slice": lambda: [content], "Ref": lambda: [content["referent"]],
                 "Fn": lambda: content["parameters"] + [content["ret"]] * (content["ret"] is not None)}
        types = tuple(self.read(t, of_symbol, parameters) for t in parts.get(name, lambda: content["types"])())
        if None in types:
            return None
        if name in ("Tuple", "Slice"):
            return (name, types) if name == "Tuple" else (name, types[0])
        if name == "Ref":
            return name, content["lifetime"], content["mutable"], types[0]
        if name in ("Nominal", "TraitObject"):
            return name, path_key(content["path"]), types
        count = len(content["parameters"])
        forall = tuple(map(one, content["forall"]))
        return name, forall, path_key(content["path"]), types[:count], types[count] if content["ret"] is not None else None

    # ---- rules

    def of_kind(self, value):
        """The type of a symbol; None where it has none yet."""
        name, content = one(value)
        if name in WRAPPERS:
            return self.of_kind(WRAPPERS[name](content)["kind"])
        if name == "Terminal":
            return self.of_terminal(content)
        if name == "Error":
            return self.of_fault("ErrorRecovery")
        if name not in ("Nonterminal", "Expr", "Repeat"):
            raise Unknown
        called = content if name == "Nonterminal" else canonical(value)
        if called not in [r["name"] for r in self.rules]:
            raise Unknown
        return self.known.get(called)

    def of_alternative(self, value):
        """The type that a default alternative or a lookaround gives; None where it gives none, or none yet."""
        if value["action"] in LOOKAROUNDS:
            return self.location
        types = [self.of_kind(s["kind"]) for _, _, s in sources(value["expr"]["symbols"])[1]]
        return None if not is_default(value) or None in types else bare_or_tuple(types)

    def found(self, rule):
        if rule["type_decl"] is not None:
            return self.lowered(rule["type_decl"])
        return next((t for t in map(self.of_alternative, rule["alternatives"]) if t is not None), None)

    def infer(self):
        """Finds the types of all rules, and the first fault."""
        open_rules = [r for r in self.rules if r["type_decl"] is None]
        for rule in open_rules:
            if not rule["alternatives"]:
                raise Refused("F47 " + place(rule["span"]))
            if not any(is_default(a) or a["action"] in LOOKAROUNDS for a in rule["alternatives"]):
                raise Refused("F48 " + place(rule["alternatives"][0]["span"]))
        while self.visit():
            pass
        for rule in self.rules:
            if rule["name"] not in self.known:
                raise Refused("F49 " + place(rule["span"]))
        for rule in open_rules:
            for a in rule["alternatives"]:
                if self.of_alternative(a) not in (None, self.known[rule["name"]]):
                    raise Refused("F50 " + place(a["span"]))
        for s in (s for r in self.rules for a in r["alternatives"] for s in a["expr"]["symbols"]):
            name, content = one(s["kind"])
            if name == "Tuple":
                self.check_tuple(content[0], content[1])
        return self

    def visit(self):
        """One round. Whether it added a type."""
        before = len(self.known)
        for rule in self.rules:
            found = None if rule["name"] in self.known else self.found(rule)
            if found is not None:
                self.known[rule["name"]] = found
        return len(self.known) > before

    def check_tuple(self, names, inside):
        name, content = one(inside["kind"])
        if name != "Nonterminal":
            raise Refused("F51 " + place(inside["span"]))
        # (a name without a rule, as that of an argument, has no type)
        self.check_names(names, self.known.get(content, ("", ())), inside)

    def check_names(self, names, ty, inside):
        if ty[0] != "Tuple":
            raise Refused("F52 " + place(inside["span"]))
        if len(ty[1]) != len(names["tuples"]):
            raise Refused("F53 " + place(inside["span"]))
        for (name, content), part in zip(map(one, names["tuples"]), ty[1]):
            if name == "Tuple":
                self.check_names(content, part, inside)


def is_default(value):
    return value["action"] is None and not sources(value["expr"]["symbols"])[0]
