"""The errors of a written grammar before anything is changed (F1 to F24), from the JSON of a tree; a part of wanted.py.

It is written after docs/use/FAULTS.md, in the order there. A tree has an `InternToken` (F21) behind the pass on tokens.
"""
import re

from wanted_forms import WRAPPERS, Refused, one, place
from wanted_tokens import KNOWN_ATTRIBUTES, blocks_of, extern_enum, item_parts, symbols_in
from wanted_types import LOOKAROUNDS, sources


def refuse(code, span):
    raise Refused(code + " " + place(span))


def first_pair(value):
    """The key and the value of an attribute's first argument, if it is one."""
    name, content = one(value["arg"])
    if name == "Paren" and content and one(content[0]["arg"])[0] == "Equal":
        return content[0]["id"], one(content[0]["arg"])[1]
    return None


def braces(code):
    """How the first `<>` of the code stands: in braces alone, otherwise, or not at all."""
    if "<>" not in code:
        return None
    before, behind = (part.strip() for part in code.split("<>", 1))
    in_text = before.count('"') % 2 == 1 and behind.count('"') % 2 == 1
    return "{}" if before.endswith("{") and behind.startswith("}") and not in_text else "plain"


# ---- levels

def first_of(alternative, name):
    return next((a for a in alternative["attributes"] if a["id"] == name), None)


def check_levels(alternatives):
    """Looks for F12."""
    pairs = [(first_of(a, "precedence"), first_of(a, "assoc")) for a in alternatives]
    if not any(stated or side for stated, side in pairs):
        return
    if pairs[0][0] is None:
        refuse("F12a", alternatives[0]["span"])
    for stated, side in pairs:
        if stated is not None:
            check_level(stated)
        if side is not None:
            check_side(side)
    check_lowest(pairs)


def check_level(stated):
    pair = first_pair(stated)
    if pair is None or pair[0] != "level":
        refuse("F12b", stated["id_span"])
    if not re.fullmatch(r"\+?[0-9]+", pair[1]) or int(pair[1]) > 4294967295:
        refuse("F12c", stated["id_span"])


def check_side(side):
    pair = first_pair(side)
    if pair is None or pair[0] != "side":
        refuse("F12d", side["id_span"])
    if pair[1] not in ("left", "right", "none", "all"):
        refuse("F12e", side["id_span"])


def check_lowest(pairs):
    lowest = min(int(first_pair(stated)[1]) for stated, _ in pairs if stated)
    level = None
    for stated, side in pairs:
        level = int(first_pair(stated)[1]) if stated else level
        if level == lowest and side and (stated or first_pair(side)[1] != "all"):
            refuse("F12f", side["id_span"])


# ---- attributes

def check_condition(value):
    """A part of a `cfg`."""
    name, content = one(value["arg"])
    parts = content if name == "Paren" else []
    if value["id"] == "feature" and name == "Equal":
        return
    if value["id"] not in ("not", "any", "all") or not parts:
        refuse("F11", value["id_span"])
    for part in parts[:1] if value["id"] == "not" else parts:
        check_condition(part)


def check_cfg(value):
    """An attribute, if it is a `cfg`."""
    name, content = one(value["arg"])
    if value["id"] == "cfg":
        if name != "Paren" or not content:
            refuse("F11", value["id_span"])
        check_condition(content[0])


def check_rule_attributes(rule):
    found = set()
    for a in rule["attributes"]:
        if a["id"] not in ("inline", "cfg"):
            refuse("F8", a["id_span"])
        if a["id"] in found:
            refuse("F9", a["id_span"])
        found.add(a["id"])
        if a["id"] == "inline" and rule["visibility"] != "Priv":
            refuse("F10", a["id_span"])
        check_cfg(a)


# ---- the whole

class Written:
    """A grammar as it is written."""

    def __init__(self, tree):
        self.tree, externs = tree, blocks_of(tree, "ExternToken")
        self.first_extern = externs[0] if externs else None
        self.has_enum = bool(externs) and externs[0]["enum_token"] is not None
        self.has_location = bool(externs) and any(t["type_name"] == "Location" for t in externs[0]["associated_types"])
        codes = [a["id"] for a in tree["attributes"] if a["id"] in KNOWN_ATTRIBUTES and a["id"] != "LALR"]
        self.ascends = codes[-1:] in (["recursive_ascent"], ["test_all"])
        self.matches = blocks_of(tree, "MatchToken")

    def check(self):
        for a in self.tree["attributes"]:
            if a["id"] not in KNOWN_ATTRIBUTES:
                refuse("F1", a["id_span"])
        if symbols_in([self.tree["parameters"], self.tree["where_clauses"]]):
            refuse("F23", self.tree["span"])
        looks = {"MatchToken": self.check_match, "ExternToken": self.check_extern, "Nonterminal": self.check_rule,
                 "InternToken": lambda _: refuse("F21", self.tree["span"])}
        for name, content in map(one, self.tree["items"]):
            looks.get(name, lambda _: None)(content)

    def check_match(self, block):
        if block is not self.matches[0]:
            refuse("F2", block["span"])
        if self.has_enum:
            refuse("F3", self.first_extern["span"])
        for item in (i for g in block["contents"] for i in g["items"]):
            _, mapping, span = item_parts(item)
            if mapping == {"Terminal": "Error"}:
                refuse("F22", span)

    def check_extern(self, block):
        if block is not self.first_extern:
            refuse("F4", block["span"])
        if block["enum_token"] and self.matches:
            refuse("F3", self.matches[0]["span"])
        known = []
        for t in block["associated_types"]:
            if t["type_name"] not in ("Location", "Error"):
                refuse("F5", t["type_span"])
            if t["type_name"] in known:
                refuse("F6", t["type_span"])
            if symbols_in(t["type_ref"]):
                refuse("F23", t["type_span"])
            known.append(t["type_name"])
        if block["enum_token"]:
            self.check_enum(block["enum_token"])

    def check_enum(self, tokens):
        if symbols_in(tokens["type_name"]):
            refuse("F23", tokens["type_span"])
        for c in tokens["conversions"]:
            if c["from"] == "Error":
                refuse("F22", c["span"])
            if symbols_in(c["to"]):
                refuse("F23", c["span"])
            for a in c["attributes"]:
                check_cfg(a)

    def check_rule(self, rule):
        if rule["visibility"] != "Priv" and rule["args"]:
            refuse("F7", rule["span"])
        if symbols_in(rule["type_decl"]):
            refuse("F23", rule["span"])
        check_rule_attributes(rule)
        check_levels(rule["alternatives"])
        for a in rule["alternatives"]:
            self.check_alternative(a)

    def check_alternative(self, value):
        values = value["expr"]["symbols"]
        self.check_symbols(values)
        for a in value["attributes"]:
            if a["id"] not in ("precedence", "assoc", "cfg"):
                refuse("F13", a["id_span"])
            check_cfg(a)
        named, parts = sources(values)
        code = one(value["action"])[1] if value["action"] else None
        if value["action"] in LOOKAROUNDS:
            refuse("F24", value["span"])
        if named and code is None:
            refuse("F14", parts[0][2]["span"])
        if not named and braces(code or "") == "{}":
            refuse("F15", value["span"])

    def check_symbols(self, values):
        """Those of an alternative or a group."""
        for s in values:
            self.check_symbol(s)
        kinds = [(s,) + one(s["kind"]) for s in values]
        chosen = [s for s, name, _ in kinds if name == "Choose"]
        named = [(content[0]["name"].encode(), s) for s, name, content in kinds if name == "Name"]
        if chosen and named:
            refuse("F16", chosen[0]["span"])
        for name in sorted({n for n, _ in named}):
            of_name = [s for n, s in named if n == name]
            if len(of_name) > 1:
                refuse("F17", of_name[1]["span"])

    def check_symbol(self, s):
        name, content = one(s["kind"])
        if name == "Error" and self.ascends:
            refuse("F18", s["span"])
        if name in LOOKAROUNDS and self.has_enum and not self.has_location:
            refuse("F20", s["span"])
        if name == "Terminal" and content == "Error":
            refuse("F22", s["span"])
        if name == "Macro" and not content["args"]:
            refuse("F19", s["span"])
        if name == "Expr":
            self.check_symbols(content["symbols"])
        inner = content["args"] if name == "Macro" else [content["symbol"]] if name == "Repeat" else []
        for part in inner + ([WRAPPERS[name](content)] if name in WRAPPERS else []):
            self.check_symbol(part)


def check_written(tree):
    Written(tree).check()


# ---- all that is malformed

def parts_with_attributes(tree):
    """Rules, alternatives and conversions, as they stand."""
    for name, content in map(one, tree["items"]):
        if name == "Nonterminal":
            yield from [content] + content["alternatives"]
        elif name == "ExternToken" and content["enum_token"]:
            yield from content["enum_token"]["conversions"]


def malformed_cfgs(tree):
    """The places of F11, one for each `cfg` that fails."""
    found = []
    for part in parts_with_attributes(tree):
        for a in part["attributes"]:
            try:
                check_cfg(a)
            except Refused as fault:
                found.append(str(fault)[4:])
    return found
