#!/usr/bin/env python3
"""The reference implementation: what the program `cases` is to print, from the JSON. None of the program's code is used.

    tools/wanted.py DATA <SCRIPT                  prints each line of the script under `== `, and its expected answer
    tools/wanted.py DATA --compare OUTPUT <SCRIPT  prints the lines for which OUTPUT has another answer; exit status 1 if there is one

DATA is the folder of the trees, SCRIPT and OUTPUT are a crate's stdin and stdout. If this script does not know an answer, it prints `?`,
and compares nothing; it counts these lines, which are to be written by hand. It knows the printed forms, which texts are trees, what the
passes make of a grammar, and with which fault they reject one, but for F56. tools/check_tools compares with it what is recorded of the
program in tools/runs.

The passes are written after the published source of lalrpop 0.23.1; the order of faults, and what differs from that source, after
docs/use/FAULTS.md and docs/language/DEFINITIONS.md. wanted_patterns.py says which patterns are known: all others are `?`.
"""
import copy
import json
import os
import re
import sys
from itertools import zip_longest

sys.dont_write_bytecode = True
from wanted_back import NoTree, Refusal, Unshown, explained, lowered_back, readings_lines, shown_lines, tree_of_lines, two_trees_of_lines
from wanted_cuts import cut_faults, cut_reads, cut_writes
from wanted_forms import Refused, Unknown, canonical, clause, literal, names_text, one, pattern, place, terminal, type_text, visibility
from wanted_lowered import Lowered, origin_word
from wanted_patterns import is_found, is_pattern
from wanted_shapes import beginnings, cut_trees, debug, debug_tokenizer, debug_tree, readings, tree_of
from wanted_tokens import (KNOWN_ATTRIBUTES, CheckOnly, NoMemory, Scripted, blocks_of, check_tokens, extern_enum, inner_symbols, is_expanded,
                           item_parts, named_terminals, symbols_under, terminals_used)
from wanted_types import LOOKAROUNDS, Types, sources, text_of
from wanted_values import table_text, values_text
from wanted_written import braces, check_levels, check_written, first_of, first_pair, malformed_cfgs


# how many characters of a line are printed, if it is longer and differs
LONG = 400


# ---- what is asked of a tree

def holds(value, features):
    """Whether a condition of `cfg` does."""
    name, content = one(value["arg"])
    parts = content if name == "Paren" else None
    if value["id"] == "feature":
        return name == "Equal" and content in features
    if value["id"] == "not":
        return bool(parts) and not holds(parts[0], features)
    if value["id"] == "all":
        return parts is not None and all(holds(p, features) for p in parts)
    return value["id"] == "any" and parts is not None and any(holds(p, features) for p in parts)


def is_active(values, features):
    parts = [one(a["arg"]) for a in values if a["id"] == "cfg"]
    return all(name == "Paren" and content and holds(content[0], features) for name, content in parts)


def asked_attributes(values, features):
    pairs = ("Some((%s, %s))" % tuple(debug("text", part) for part in pair) if pair else "None" for pair in map(first_pair, values))
    return "  on: %s%s\n" % (truth(is_active(values, features)), "".join(" " + pair for pair in pairs))


def truth(value):
    return str(value).lower()


def presence(code):
    """The class of the first `<>` of an action code, and whether it is just between braces."""
    return ", <> %s, in braces: %s" % ({None: "None", "plain": "Normal", "{}": "InCurlyBrackets"}[braces(code)], truth(braces(code) == "{}"))


def presence_in(action):
    code = one(action)[1] if action else None
    return presence(code) if code is not None else ""


def asked_alternative(value, features):
    if value["action"]:
        gives = "User(%s)" % debug("Code", value["action"])
    else:
        named, parts = sources(value["expr"]["symbols"])
        shown = ["(%d, %s%s)" % (i, debug("ArgPattern", dict([name])) + ", " if named else "", debug("Symbol", s)) for i, name, s in parts]
        gives = "Default(%s([%s]))" % ("Named" if named else "Anon", ", ".join(shown))
    return "    %s %s%s%s" % (place(value["span"]), gives, presence_in(value["action"]), asked_attributes(value["attributes"], features))


def level_numbers(rule):
    """Of each alternative the level and the associativity that it states or inherits; level 0 if none before it states one."""
    found, level, side = [], 0, "all"
    for a in rule["alternatives"]:
        stated, given = first_of(a, "precedence"), first_of(a, "assoc")
        if stated:
            level, side = int(first_pair(stated)[1]), "all"
        side = first_pair(given)[1] if given else side
        found.append((level, side))
    return found


def asked_levels(rule):
    """The levels and the associativity of each, if none is an error."""
    try:
        check_levels(rule["alternatives"])
    except Refused:
        return " wrong"
    return "".join(" %d %s" % pair for pair in level_numbers(rule))


def has_several(rule):
    try:
        check_levels(rule["alternatives"])
    except Refused as fault:
        if not str(fault).startswith(("F12a", "F12f")):
            raise Unknown from None
    return has_levels(rule) and len({level for level, _ in level_numbers(rule)}) > 1


def has_levels(rule):
    first = rule["alternatives"][:1]
    return any(a["id"] in ("precedence", "assoc") for f in first for a in f["attributes"])


def asked_rule(rule, features):
    text = "  rule %s, public: %s, macro: %s" % (rule["name"], truth(rule["visibility"] != "Priv"), truth(bool(rule["args"])))
    text += ", on with no feature: " + truth(is_active(rule["attributes"], set()))
    if rule["type_decl"] is not None:
        text += ", type of a symbol" if "OfSymbol" in json.dumps(rule["type_decl"]) else ", type: " + type_text(rule["type_decl"])
    text += ", levels: %s%s\n" % (truth(has_levels(rule)), asked_levels(rule)) + asked_attributes(rule["attributes"], features)
    return text + "".join(asked_alternative(a, features) for a in rule["alternatives"])


def length(value):
    name, content = one(value)
    if name != "Literal":
        return len(content or "error")
    name, text = one(content)
    return len(text.encode()) + (0 if name == "Quoted" else 5)


def first_blocks(tree):
    found = [("match", "MatchToken", blocks_of(tree, "MatchToken")), ("extern", "ExternToken", blocks_of(tree, "ExternToken")),
             ("enum", "EnumToken", [extern_enum(tree)])]
    text = "".join("first %s: %s\n" % (word, debug(shape + "?", next(iter(blocks), None))) for word, shape, blocks in found)
    return text + "tokenizer: %s\n" % shown_tokenizer(next(iter(blocks_of(tree, "InternToken")), None))


def shown_tokenizer(block):
    return "Some(%s)" % debug_tokenizer(block) if block else "None"


def asked_extern(block):
    text = ""
    for word, name in (("location", "Location"), ("error", "Error")):
        found = next((t for t in block["associated_types"] if t["type_name"] == name), None)
        text += "  %s: %s\n" % (word, debug("AssociatedType?", found))
    for c in (block["enum_token"] or {"conversions": []})["conversions"]:
        text += "  %s of length %d" % (terminal(c["from"]), length(c["from"]))
        if one(c["from"])[0] == "Literal":
            text += ", precedence %d" % (one(one(c["from"])[1])[0] == "Quoted")
        text += "\n"
    return text


def asked(tree, features):
    text = first_blocks(tree) + asked_attributes(tree["attributes"], features)
    for name, content in map(one, tree["items"]):
        is_macro = name == "Nonterminal" and bool(content["args"])
        block = content if name == "MatchToken" else None
        text += "item, macro: %s\n  match: %s\n" % (truth(is_macro), debug("MatchToken?", block))
        text += "  tokenizer: %s\n" % shown_tokenizer(content if name == "InternToken" else None)
        if name == "ExternToken":
            text += asked_extern(content)
        elif name == "Nonterminal":
            text += asked_rule(content, features)
    return text


def algorithms(tree):
    """What each attribute of a grammar asks for, if it is known."""
    text = ""
    for a in tree["attributes"]:
        code = {"recursive_ascent": "RecursiveAscent", "test_all": "TestAll"}.get(a["id"], "TableDriven")
        if a["id"] in KNOWN_ATTRIBUTES:
            text += "Algorithm { lalr: %s, codegen: %s }\n" % (truth(a["id"] == "LALR"), code)
    return text


def single_name(ty):
    """The name that the path of a type is, if it is one part and not absolute."""
    (absolute, names) = ty[1]
    return names[0] if not absolute and len(names) == 1 else None


def rule_without_memory(rule, ty, features):
    name = rule["name"]
    text = "rule %s of length %d, public: %s" % (name, len(name.encode()), truth(rule["visibility"] != "Priv"))
    text += ", macro: %s, levels: %s, type %s" % (truth(bool(rule["args"])), truth(has_levels(rule)), text_of(ty))
    text += " of the name " + debug("text?", single_name(ty)) if ty[0] == "Nominal" else ""
    text += asked_attributes(rule["attributes"], features)
    quoted, regex = literal({"Quoted": name}), literal({"Regex": name})
    text += "   %s equal true %s Some(%s) %s %s %s mut %s ()\n" % (name, name, quoted, quoted, regex, name, name)
    return text + "".join("   action%s %s\n" % (presence_in(a["action"]), place(a["span"])) for a in rule["alternatives"])


def without_memory(tree, features):
    """What calls without memory answer, of the resolved tree and of its types."""
    resolve(tree)
    types = Types(tree).infer()
    text = first_blocks(tree) + algorithms(tree)
    for name, content in map(one, tree["items"]):
        if name == "ExternToken":
            text += asked_extern(content)
        elif name == "Nonterminal":
            text += rule_without_memory(content, types.known[content["name"]], features)
    text += "expanded: %s, typed: %s\n" % (truth(is_expanded(tree)), truth(is_typed(tree, features)))
    text += "action 22, fault F36, side none, error of the unit type: false\n"
    remove_disabled(tree, features)
    return text + "%d items are on\n" % len(tree["items"])


def copies_of(tree):
    """The parts that are copied by themselves, in order: each copy is equal."""
    parts = []
    for name, content in map(one, tree["items"]):
        if name == "ExternToken":
            for c in (content["enum_token"] or {"conversions": []})["conversions"]:
                kind, inside = one(c["to"]["kind"])
                parts += ["kind of a pattern"] + ["field of a pattern"] * (len(inside[1]) if kind == "Struct" else 0)
        elif name == "Nonterminal":
            parts += ["attribute", "argument of an attribute"] * len(content["attributes"])
            kinds = (one(s["kind"])[0] for a in content["alternatives"] for s in a["expr"]["symbols"])
            parts += [{"Macro": "call", "Repeat": "repeat"}[kind] for kind in kinds if kind in ("Macro", "Repeat")]
    return "".join("%s copied: true\n" % part for part in parts + ["refusal of a pattern", "refusal of a side"])


def texts_of(tree):
    text = "copy equal true, with another span unequal %s\n" % truth(tree["span"] != [0, 1]) + algorithms(tree)
    text += "".join("type parameter %s\n" % one(p)[1] for p in tree["type_parameters"])
    text += "".join("parameter of type %s\n" % type_text(p["ty"]) for p in tree["parameters"])
    text += "".join("where %s\n" % clause(c) for c in tree["where_clauses"])
    for name, content in map(one, tree["items"]):
        if name == "MatchToken":
            text += "".join("item %s\n" % place(item_parts(i)[2]) for g in content["contents"] for i in g["items"])
        elif name == "ExternToken":
            text += extern_texts(content)
        elif name == "Nonterminal":
            declared = ": " + type_text(content["type_decl"]) if content["type_decl"] is not None else ""
            text += visibility(content["visibility"]) + "rule" + declared + "\n"
            text += "several levels\n" if has_several(content) else ""
            text += "".join(map(symbol_texts, (s for a in content["alternatives"] for s in a["expr"]["symbols"])))
    return text


def extern_texts(block):
    text = "".join("associated type %s\n" % type_text(t["type_ref"]) for t in block["associated_types"])
    if block["enum_token"]:
        text += "enum %s\n" % type_text(block["enum_token"]["type_name"])
        text += "".join("pattern %s\n" % pattern(c["to"]) for c in block["enum_token"]["conversions"])
    return text


def symbol_texts(s):
    name, content = one(s["kind"])
    shown = canonical(s["kind"])
    again = {"Expr": " group " + shown, "Macro": " call " + shown, "Repeat": " repeat " + shown}.get(name, "")
    if name == "Tuple":
        again = " names %s of %s" % (names_text(content[0]), canonical(content[1]["kind"]))
    return "symbol " + shown + again + "\n"


# ---- the passes

def rules_of(tree):
    return blocks_of(tree, "Nonterminal")


def mark_origins(tree):
    """Each alternative gets its rule and its number, from 0, as its origin."""
    for rule in rules_of(tree):
        for number, a in enumerate(rule["alternatives"]):
            a["origin"] = (rule["name"], number)


def remove_disabled(tree, features):
    tree["items"] = [i for i in tree["items"] if one(i)[0] != "Nonterminal" or is_active(one(i)[1]["attributes"], features)]
    for rule in rules_of(tree):
        rule["alternatives"] = [a for a in rule["alternatives"] if is_active(a["attributes"], features)]
    remove_conversions(tree, features)


def remove_conversions(tree, features):
    for name, content in map(one, tree["items"]):
        if name == "ExternToken" and content["enum_token"]:
            tokens = content["enum_token"]
            tokens["conversions"] = [c for c in tokens["conversions"] if is_active(c["attributes"], features)]


def declared_names(tree):
    """The rules, the bare terminals of conversions, and those of match blocks: name, what it is, span; in the order of declaration."""
    bare = [(c["from"], c["span"]) for b in blocks_of(tree, "ExternToken") for c in (b["enum_token"] or {"conversions": []})["conversions"]]
    items = [i for b in blocks_of(tree, "MatchToken") for g in b["contents"] for i in g["items"]]
    bare += [(t, span) for _, mapping, span in map(item_parts, items) if mapping for t in named_terminals([mapping])]
    rules = [(r["name"], "macro" if r["args"] else "rule", r["span"]) for r in rules_of(tree)]
    return rules + [(one(t)[1], "bare", span) for t, span in bare if one(t)[0] == "Bare"]


def global_names(tree):
    """What each declared name is; F25 if a name is declared twice."""
    named = {}
    for name, what, span in declared_names(tree):
        if name in named:
            raise Refused("F25 " + place(span))
        named[name] = what
    return named


def resolve_symbol(s, scope, arities):
    name, content = one(s["kind"])
    if s.get("in_macro"):
        raise Refused("F29 " + place(s["span"]))
    if name == "Macro":
        what, given = scope.get(content["name"]), len(content["args"])
        wrong = "F27" if what is None else "F30" if what != "macro" else "F31" if given != arities[content["name"]] else None
        if wrong:
            raise Refused(wrong + " " + place(s["span"]))
    if name in ("AmbiguousId", "Nonterminal"):
        what = scope.get(content)
        wrong = "F27" if what is None else "F29" if name == "Nonterminal" and what not in ("rule", "argument") else "F32" if what == "macro" else None
        if wrong:
            raise Refused(wrong + " " + place(s["span"]))
        s["kind"] = {"Terminal": {"Bare": content}} if what == "bare" else {"Nonterminal": content}


def symbols_as_resolved(values):
    """The symbols, those inside of others before them; but a call before its arguments."""
    for s in values:
        name, content = one(s["kind"])
        if name == "Macro":
            yield s
            yield from symbols_as_resolved(content["args"])
        else:
            yield from symbols_as_resolved(inner_symbols(name, content))
            yield s


def resolve(tree):
    named = global_names(tree)
    arities = {r["name"]: len(r["args"]) for r in rules_of(tree)}
    for rule in rules_of(tree):
        if len(set(rule["args"])) < len(rule["args"]):
            raise Refused("F26 " + place(rule["span"]))
        scope = dict(named, **{a: "argument" for a in rule["args"]})
        for a in rule["alternatives"]:
            what = scope.get(a["condition"]["lhs"]) if a["condition"] else "argument"
            if what != "argument":
                raise Refused(("F28 " if what else "F27 ") + place(a["condition"]["span"]))
            for s in symbols_as_resolved(a["expr"]["symbols"]):
                resolve_symbol(s, scope, arities)


def put_level(values, target, names):
    """Replaces each recursive occurrence of the target name: by the names in turn, the last one for all others."""
    for s in values:
        if s["kind"] == {"Nonterminal": target}:
            s["kind"] = {"Nonterminal": names.pop(0) if len(names) > 1 else names[0]}


def level_rule(rule, level, below, highest):
    """The rule of one level."""
    made = copy.deepcopy(rule)
    made["name"] = rule["name"] if level == highest else "%s%d" % (rule["name"], level)
    lower = "%s%d" % (rule["name"], below) if below is not None else None
    pairs = zip(level_numbers(rule), made["alternatives"])
    made["alternatives"] = []
    for (number, side), a in pairs:
        if number == level:
            a["attributes"] = [x for x in a["attributes"] if x["id"] not in ("precedence", "assoc")]
            found = list(symbols_under(a["expr"]["symbols"]))
            names = {"all": [made["name"]], "none": [lower]}.get(side, [made["name"], lower])
            put_level(found if side != "right" else found[::-1], rule["name"], names)
            made["alternatives"].append(a)
    if lower:
        step = {"span": rule["span"], "kind": {"Nonterminal": lower}, "in_macro": bool(rule["args"])}
        made["alternatives"].append({"span": rule["span"], "expr": {"symbols": [step]}, "condition": None, "action": None, "attributes": [],
                                     "origin": "step"})
    return {"Nonterminal": made}


def expand_levels(tree):
    for rule in rules_of(tree):
        check_levels(rule["alternatives"])
    items = []
    for value in tree["items"]:
        name, rule = one(value)
        if name != "Nonterminal" or not has_levels(rule):
            items.append(value)
            continue
        levels = sorted({number for number, _ in level_numbers(rule)})
        items += [level_rule(rule, level, below, levels[-1]) for below, level in zip([None] + levels, levels)]
    tree["items"] = items


def nominal(names, inner):
    return {"Nominal": {"path": {"absolute": False, "ids": names}, "types": [inner]}}


def new_alternative(span, values, code, origin):
    return {"span": span, "expr": {"symbols": values}, "condition": None, "action": {"User": code}, "attributes": [], "origin": origin}


def bound(span, name, inner):
    return {"span": span, "kind": {"Name": [{"mutable": False, "name": name}, inner]}}


def group_rule(span, group):
    named, parts = sources(group["symbols"])
    if named:
        raise Refused("F35 " + place(span))
    types = [{"OfSymbol": copy.deepcopy(s["kind"])} for _, _, s in parts]
    single = len(types) == 1
    return types[0] if single else {"Tuple": types}, [new_alternative(span, group["symbols"], "<>" if single else "(<>)", "group")], True


def repeat_rule(span, repeat):
    inner = repeat["symbol"]
    of_inner = {"OfSymbol": copy.deepcopy(inner["kind"])}
    plus = {"span": span, "kind": {"Repeat": {"op": "Plus", "symbol": inner}}}
    if repeat["op"] == "Question":
        return nominal(["Option"], of_inner), [
            new_alternative(span, [inner], "Some(<>)", "once"), new_alternative(span, [], "None", "none")], True
    vec = nominal(["alloc", "vec", "Vec"], of_inner)
    name, count = one(repeat["op"])
    if name == "Times":
        if one(inner["kind"])[0] in ("Name", "Tuple"):
            raise Refused("F57 " + place(span))
        return vec, [new_alternative(span, [copy.deepcopy(inner) for _ in range(count)], "alloc::vec![<>]", "times")], True
    if repeat["op"] == "Star":
        return vec, [
            new_alternative(span, [], "alloc::vec![]", "empty"), new_alternative(span, [bound(span, "v", plus)], "v", "filled")], True
    push = [bound(span, "v", copy.deepcopy(plus)), bound(span, "e", inner)]
    return vec, [new_alternative(span, [inner], "alloc::vec![<>]", "one"),
                 new_alternative(span, push, "{ let mut v = v; v.push(e); v }", "more")], False


def holds_of(condition, bound_to):
    """The value of a condition, of what its left side is bound to."""
    name, content = one(bound_to[condition["lhs"]])
    text = one(content)[1] if name == "Terminal" and one(content)[0] == "Literal" else None
    if text is None or one(text)[0] != "Quoted":
        raise Refused("F33 " + place(condition["span"]))
    literal_text, right = one(text)[1], condition["rhs"]
    if condition["op"] in ("Equals", "NotEquals"):
        return (literal_text == right) == (condition["op"] == "Equals")
    if not is_pattern(right):
        raise Refused("F34 " + place(condition["span"]))
    found = is_found(right, literal_text)
    return found == (condition["op"] == "Match")


def put_in(values, bound_to):
    """The symbols with those for the names of arguments, which keep the spans of the names."""
    for s in symbols_under(values):
        name, content = one(s["kind"])
        if name == "Nonterminal" and content in bound_to:
            s["kind"] = copy.deepcopy(bound_to[content])


def type_of_instance(ty, bound_to):
    name, content = one(ty)
    if name == "Id":
        return {"OfSymbol": bound_to[content]} if content in bound_to else {"Nominal": {"path": {"absolute": False, "ids": [content]}, "types": []}}
    if name == "Tuple":
        return {name: [type_of_instance(t, bound_to) for t in content]}
    if name == "Slice":
        return {name: type_of_instance(content, bound_to)}
    if name in ("Nominal", "TraitObject"):
        return {name: dict(content, types=[type_of_instance(t, bound_to) for t in content["types"]])}
    if name == "Ref":
        return {name: dict(content, referent=type_of_instance(content["referent"], bound_to))}
    if name == "Lifetime":
        return ty
    if name == "Fn":
        ret = content["ret"] if content["ret"] is None else type_of_instance(content["ret"], bound_to)
        return {name: dict(content, parameters=[type_of_instance(t, bound_to) for t in content["parameters"]], ret=ret)}
    raise Unknown


def instance_rule(span, macro, args):
    """The visibility, the attributes, the type and the alternatives of the instance."""
    bound_to = dict(zip(macro["args"], (s["kind"] for s in args)))
    ty = None if macro["type_decl"] is None else type_of_instance(macro["type_decl"], bound_to)
    made = [copy.deepcopy(a) for a in macro["alternatives"] if a["condition"] is None or holds_of(a["condition"], bound_to)]
    for a in made:
        a.update(span=span, condition=None)
        put_in(a["expr"]["symbols"], bound_to)
    return macro["visibility"], copy.deepcopy(macro["attributes"]), ty, made


def made_rule(text, s, macros):
    """The rule of a symbol, where it was first met."""
    span, (name, content) = s["span"], one(s["kind"])
    seen, marks = "Priv", [{"id_span": span, "id": "inline", "arg": "Empty"}]
    if name == "Macro":
        seen, marks, ty, made = instance_rule(span, macros[content["name"]], content["args"])
    elif name in LOOKAROUNDS:
        ty, made = None, [{"span": span, "expr": {"symbols": []}, "condition": None, "action": name, "attributes": [],
                           "origin": {"Lookahead": "@L", "Lookbehind": "@R"}[name]}]
    else:
        ty, made, inline = group_rule(span, content) if name == "Expr" else repeat_rule(span, content)
        marks = marks if inline else []
    return {"visibility": seen, "name": text, "attributes": marks, "span": span, "args": [], "type_decl": ty, "alternatives": made}


def unplaced(value):
    """The JSON of a part of a symbol, its spans left out."""
    if isinstance(value, dict):
        return {k: unplaced(v) for k, v in value.items() if k != "span"}
    return [unplaced(v) for v in value] if isinstance(value, list) else value


def meet(s, seen, declared):
    """Puts the name in the place of the symbol. What is to be made, where it is new."""
    text, shape = canonical(s["kind"]), unplaced(s["kind"])
    if text in declared or seen.get(text, shape) != shape:
        raise Refused("F37 " + place(s["span"]))
    new = [] if text in seen else [(text, copy.deepcopy(s))]
    seen[text] = shape
    s["kind"] = {"Nonterminal": text}
    return new


def expand_macros(tree, limit):
    """Calls, groups, repeats and lookarounds, round by round; what was met last is made first. How many rules, and how many rounds."""
    declared = {r["name"] for r in rules_of(tree)}
    macros = {r["name"]: r for r in rules_of(tree) if r["args"]}
    tree["items"] = [i for i in tree["items"] if one(i)[0] != "Nonterminal" or not one(i)[1]["args"]]
    seen, rest, rounds = {}, rules_of(tree), 0
    while True:
        waiting = []
        for rule in rest:
            for a in rule["alternatives"]:
                for s in symbols_under(a["expr"]["symbols"]):
                    if one(s["kind"])[0] in ("Expr", "Repeat", "Macro") + LOOKAROUNDS:
                        waiting += meet(s, seen, declared)
        if not waiting:
            return len(seen), rounds + 1
        rounds += 1
        if rounds > limit:
            raise Refused("F36 " + place(waiting[-1][1]["span"]))
        rest = [made_rule(text, s, macros) for text, s in reversed(waiting)]
        tree["items"] += [{"Nonterminal": r} for r in rest]


# ---- types

def types_text(tree):
    return table_text(Types(tree).infer())


def is_typed(tree, features):
    """Whether no terminal is named twice and each one that is used is named. That rules have types is found by `types_text`."""
    enum, interns = extern_enum(tree), blocks_of(tree, "InternToken")
    if enum:
        named = [c["from"] for c in enum["conversions"] if is_active(c["attributes"], features)]
    else:
        named = named_terminals([e["user_name"] for t in interns[:1] for e in t["match_entries"]])
    return all(named.count(t) == 1 for t in named) and all(t in named for t, _ in terminals_used(tree))


# ---- the script

class Usage(Exception):
    """Words that are no options."""


def settings(words):
    """Features, limit, and whether origins are asked for."""
    features, limit, origins, rest = set(), 200, False, list(words)
    if words[:1] == ("told",):
        raise Unknown
    while rest:
        option = rest.pop(0)
        if option == "--origins":
            origins = True
        elif not rest:
            raise Usage
        elif option == "--feature":
            features.add(rest.pop(0))
        elif option == "--limit" and re.fullmatch(r"\+?[0-9]+", rest[0]) and int(rest[0]) < 65536:
            limit = int(rest.pop(0))
        else:
            raise Usage
    return features, limit, origins


class NotExpanded(Exception):
    """What the pass on tokens asks for does not hold."""


def run_pass(name, tree, features, limit, lexer=None):
    if name == "validate":
        check_written(tree)
    elif name == "check_globals":
        global_names(tree)
    elif name == "remove_disabled_decls":
        remove_disabled(tree, features)
    elif name in ("resolve", "expand_precedence"):
        resolve(tree)
        if name == "expand_precedence":
            expand_levels(tree)
            resolve(tree)
    elif name == "expand_levels":
        expand_levels(tree)
    elif name == "expand_macros":
        resolve(tree)
        expand_macros(tree, limit)
    elif name in ("token_check", "token_check_scripted"):
        if not is_expanded(tree) or blocks_of(tree, "InternToken"):
            raise NotExpanded
        check_tokens(tree, lexer or CheckOnly())
    elif name not in ("read", "copy"):
        raise Unknown


def normalized(tree, features, limit, lexer=None):
    check_written(tree)
    mark_origins(tree)
    remove_disabled(tree, features)
    roots = {r["name"] for r in rules_of(tree) if not r["args"]}
    resolve(tree)
    expand_levels(tree)
    resolve(tree)
    expand_macros(tree, limit)
    check_tokens(tree, lexer or CheckOnly())
    return Lowered(tree, roots)


def counted(tree, limit):
    """How much an expansion did, and the tree is expanded. Each rule that is made has one text."""
    resolve(tree)
    rules, rounds = expand_macros(tree, limit)
    return "Counts { instances: %d, rounds: %d, texts: %d }\n" % (rules, rounds, rules)


def origins_text(tree):
    """A line for each rule: the origins of its alternatives."""
    lists = ([a["origin"] for a in rule["alternatives"]] for rule in rules_of(tree))
    return "".join("origins:%s\n" % "".join(" [%s]" % origin_word(o) for o in origins) for origins in lists)


def expanded_traced(tree, features, limit):
    """The tree of `expand_macros` after `remove_disabled_decls`, and the origins of its alternatives."""
    mark_origins(tree)
    remove_disabled(tree, features)
    run_pass("expand_macros", tree, features, limit)
    return debug_tree(tree) + origins_text(tree)


def lowered_alone(tree, features):
    """What `lower` makes of a tree whose names are resolved; types are those of all conversions, terminals of the active ones."""
    types_text(tree)
    if not is_expanded(tree) or not is_typed(tree, features):
        raise NotExpanded
    lowered = Lowered(tree)
    remove_conversions(tree, features)
    return lowered.json()


USAGE = {"lnorm": "lnorm [--limit N] [--feature F]... [--origins]",
         "lexplain": "lexplain explain|lower|ambiguous GRAMMAR [--limit N] [--feature F]..., "
                     "or lexplain grammar GRAMMAR [--limit N] [--feature F]... [--origins]"}
NO_TREE = {"lnorm": "not a tree", "lexplain": "the file is no tree of a grammar"}


def lines_of(data, words):
    """What `lnorm` prints."""
    return printed_by("lnorm", data, words, Lowered.lines)


def json_of(data, words):
    """What `lexplain grammar` prints, with the arguments behind the grammar's name."""
    return printed_by("lexplain", data, words, Lowered.json)


def printed_by(program, data, words, text_of_it):
    """What the program prints on both streams, and its exit status."""
    try:
        features, limit, origins = settings(words)
        tree = tree_of(data)
        if tree is None:
            return "standard error: %s: %s\nstatus 2\n" % (program, NO_TREE[program])
        return text_of_it(normalized(tree, features, limit), origins) + "status 0\n"
    except Usage:
        return "standard error: %s: usage: %s\nstatus 2\n" % (program, USAGE[program])
    except Refused as fault:
        return "standard error: %s\nstatus 1\n" % fault


def counts_of(data):
    """What a call of the library prints; of a fault it prints the message too, which is not told here."""
    tree = tree_of(data)
    if tree is None:
        return "no tree\n"
    try:
        return normalized(tree, set(), 200).counts()
    except Refused:
        raise Unknown from None


PASSES = ("read", "validate", "check_globals", "remove_disabled_decls", "resolve", "expand_levels", "expand_precedence",
          "expand_macros", "token_check")
LAST = ("token_check_scripted", "infer_types", "normalize", "lowered_copy", "values", "copy", "copies", "lower", "is_typed", "ask", "texts",
        "normalize_scripted", "without_memory", "expand_macros_counted", "expand_macros_traced",
        "malformed_cfgs", "traced")
BACK = ("explain", "explain_at", "lower_tree", "there_and_back", "ambiguous")


def back_answer(data, beside, call, words):
    """What a call of the way back answers for the tree, or the two trees, that are named beside the grammar."""
    features, limit, _ = settings(words)
    tree = tree_of(data)
    if tree is None:
        return "not a tree\n"
    lowered = normalized(tree, features, limit)
    try:
        if call == "lower_tree":
            return shown_lines(lowered_back(lowered, tree_of_lines(beside, "rule", "alternative")))
        if call == "ambiguous":
            return readings_lines(lowered, two_trees_of_lines(beside, "nonterminal", "production"))
        written = explained(lowered, tree_of_lines(beside, "nonterminal", "production"), call == "explain_at")
        return shown_lines(lowered_back(lowered, written[0]) if call == "there_and_back" else written)
    except NoTree:
        return "no tree beside it\n"
    except (Refusal, Unshown) as fault:
        return "%s\n" % fault


def passes_answer(data, call, words):
    words = words[1:] if words[:1] == ("twice",) else words
    *first, last = call.split(",")
    if not set(first) <= set(PASSES) or last not in PASSES + LAST:
        return "no such call\n"
    lexer = Scripted(words) if last in ("token_check_scripted", "normalize_scripted") else CheckOnly()
    features, limit, _ = settings(() if isinstance(lexer, Scripted) else words)
    tree = tree_of(data)
    if tree is None:
        return "not a tree\n"
    for one_pass in first:
        run_pass(one_pass, tree, features, limit)
    if last in ("normalize", "normalize_scripted", "lowered_copy", "values", "traced"):
        lowered = normalized(tree, features, limit, lexer)
        return values_text(lowered) if last == "values" else {"lowered_copy": lowered.copied, "traced": lowered.traced}.get(last, lowered.json)()
    if last == "lower":
        resolve(tree)
        return lowered_alone(tree, features)
    if last in ("infer_types", "is_typed"):
        resolve(tree)
        text = types_text(tree)
        return text if last == "infer_types" else "typed: %s\n" % str(is_typed(tree, features)).lower()
    if last == "malformed_cfgs":
        return "malformed: [%s]\n" % ", ".join("Span(%s)" % p.replace("..", ", ") for p in malformed_cfgs(tree))
    if last == "expand_macros_traced":
        return expanded_traced(tree, features, limit)
    looks = {"ask": lambda: asked(tree, features), "texts": lambda: texts_of(tree), "copies": lambda: copies_of(tree),
             "without_memory": lambda: without_memory(tree, features)}
    if last in looks:
        return looks[last]()
    told = counted(tree, limit) if last == "expand_macros_counted" else ""
    if not told:
        run_pass(last, tree, features, limit, lexer)
    if last in ("validate", "check_globals"):
        return "ok\n"
    return told + debug_tree(tree)


def contents(data, name):
    """What the files of a name hold: that of a tree, and of what is named beside it."""
    for part in name.split("+", 1):
        with open(os.path.join(data, part + ".json"), "rb") as opened:
            yield opened.read()


def answer(data, name, call, *words):
    try:
        content, *beside = contents(data, name)
    except OSError:
        return "no file\n"
    try:
        cuts = {"cut_reads": cut_reads, "cut_writes": cut_writes, "cut_faults": cut_faults}
        if call in cuts:
            return cuts[call](lines_of, content, words)
        readers = {"read_twice": readings, "beginnings": beginnings, "cut_trees": cut_trees, "library": counts_of}
        if call in readers:
            return readers[call](content)
        if call in BACK:
            return by_passes(content, call, words, lambda: back_answer(content, b"".join(beside), call, words))
        programs = {"lnorm": lines_of, "grammar": json_of}
        return programs[call](content, words) if call in programs else by_passes(content, call, words)
    except Unknown:
        return "?\n"


def by_passes(content, call, words, asked=None):
    """What passes answer, or why they answer nothing; twice where that is asked."""
    try:
        told = asked() if asked else passes_answer(content, call, words)
    except NotExpanded:
        told = "not expanded\n"
    except Usage:
        return "usage\n"
    except NoMemory:
        told = "memory\n"
    except Refused as fault:
        told = str(fault) + "\n"
    return told * (2 if words[:1] == ("twice",) else 1)


def answers_of(text):
    """The lines of an output, and what stands under each."""
    found, line = {}, None
    for part in text.splitlines(keepends=True):
        if part.startswith("== "):
            line = part[3:].rstrip("\n")
            found[line] = ""
        elif line is not None:
            found[line] += part
    return found


def difference(want, got):
    """Two answers that differ; of a long line what is around its first difference."""
    pairs = zip_longest(want.split("\n"), (got or "").split("\n"), fillvalue="")
    one_line, other = next((pair for pair in pairs if pair[0] != pair[1]), ("", ""))
    if got is None or max(len(one_line), len(other)) < LONG:
        return "-- wanted\n%s-- got\n%s" % (want, got)
    start = max(len(os.path.commonprefix([one_line, other])) - LONG // 4, 0)
    return "-- wanted, from character %d of a line\n%s\n-- got\n%s\n" % (start, one_line[start:start + LONG], other[start:start + LONG])


def main():
    data, others = sys.argv[1], sys.argv[2:]
    got = answers_of(open(others[1], encoding="utf-8", newline="").read()) if others else {}
    same = unknown = 0
    differ = []
    for line in sys.stdin.read().splitlines():
        if line and not line.startswith("#"):
            name, *others_of_line = line.split()
            want = answer(data, name, *others_of_line) if others_of_line else "no case\n"
            if not others:
                sys.stdout.write("== %s\n%s" % (line, want))
            elif want == "?\n":
                unknown += 1
            elif got.get(line) == want:
                same += 1
            else:
                differ.append("== %s\n%s" % (line, difference(want, got.get(line))))
    if others:
        print("".join(differ) + "%d same, %d differ, %d not told here" % (same, len(differ), unknown))
    return bool(differ)


if __name__ == "__main__":
    sys.exit(main())
