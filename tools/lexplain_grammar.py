"""A grammar as tools/lexplain sees it: the rules as written, the productions of the lowered grammar, and what each is made from.

A symbol is ("terminal", text) or ("nonterminal", name). The text of a terminal is that of docs/use/FORMATS.md, section 3, but `!` for the
error terminal. Everything is read from what `lexplain grammar --origins` prints and from the grammar's tree; nothing is lowered here.
"""
import json
import re

from lnorm_lines import ORIGINS, terminal, variant
from wanted import is_active

TERMINAL, NONTERMINAL = "terminal", "nonterminal"
LISTS = {"group": "", "times": "", "empty": "*", "some": "?", "one": "+"}


def terminal_text(value):
    return "!" if value == "Error" else terminal(value)


def symbol_of(value):
    name, held = variant(value)
    return (NONTERMINAL, held) if name == "Nonterminal" else (TERMINAL, terminal_text(held))


class Production:
    """A production of the lowered grammar. `rule` and `alternative` are those that it is written as; else `origin` has the word of
    docs/use/FORMATS.md, section 2."""

    def __init__(self, value, origin):
        name, held = variant(origin)
        self.symbols, self.span, self.rule, self.alternative = [symbol_of(it) for it in value["symbols"]], value["span"], None, None
        self.kind = name
        if name == "Written":
            self.rule, self.alternative, self.origin = held["rule"], held["alternative"], "written"
        else:
            self.origin = ORIGINS[name]

    def text(self):
        return " ".join(name for _, name in self.symbols) or "(nothing)"


class Grammar:
    """The rules of a grammar, its productions, and its terminals."""

    def __init__(self, whole, tree, text, features):
        lowered = whole["grammar"]
        self.text, self.data = text, text.text.encode() if text else None
        self.productions = {name: [Production(it, whole["origins"][it["action"]]) for it in entry["productions"]]
                            for name, entry in lowered["nonterminals"]}
        self.rules = {rule["name"]: rule for rule in rules_of(tree) if is_active(rule["attributes"], set(features))}
        self.terminals = {terminal_text(it): it for it in lowered["terminals"]["all"]}
        self.entries = lowered["intern_token"]["match_entries"] if lowered["intern_token"] else []
        self.roots = [name for name, rule in self.rules.items() if not rule["args"] and name in self.productions]
        public = {name for name, _ in lowered["start_nonterminals"]}
        self.starts = [name for name in self.roots if name in public] or self.roots
        self.rule_of = {name: self.rule_at(name) for name in self.productions}
        self.shown = {name: self.name_shown(name) for name in self.productions}
        self.by_name = {}
        for name in self.productions:
            for known in {self.shown[name], self.rule_of[name]} - {None}:
                self.by_name.setdefault(known, []).append(name)

    # ---- which rule a nonterminal is of

    def rule_at(self, name):
        """The written rule or macro of a nonterminal; None if it is generated for a group, a repeat, a location or a start symbol."""
        for it in self.productions[name]:
            if it.rule is not None:
                return it.rule
        step = self.step(name)
        return name if name in self.rules else step and self.rule_at(step)

    def step(self, name):
        """The nonterminal of the next lower level, or None."""
        return next((it.symbols[0][1] for it in self.productions[name] if it.origin == "step"), None)

    def lowest(self, name):
        """The nonterminal of the lowest level below this one."""
        while self.step(name):
            name = self.step(name)
        return name

    def name_shown(self, name):
        """The name by which people know a nonterminal: that of its rule, with the arguments of a macro's call, or else its own."""
        rule = self.rule_of[name]
        if rule is None:
            return name
        return rule + name[name.index("<"):] if self.rules.get(rule, {}).get("args") and "<" in name else rule

    def named(self, name):
        """The nonterminals that are known by a name: as the rule, the macro with or without arguments, or the generated one; highest first."""
        return sorted(self.by_name.get(name, ()), key=lambda it: it != name)

    def kind(self, name):
        """What a generated nonterminal is: the origin of its first production."""
        return self.productions[name][0].origin if self.productions.get(name) else None

    def is_list(self, name):
        return self.rule_of[name] is None and self.kind(name) in LISTS

    def is_location(self, name):
        return self.kind(name) in ("@L", "@R")

    # ---- what is written where

    def place(self, span):
        if self.text is None:
            return "bytes %d..%d" % tuple(span)
        return "%d:%d" % self.text.line_and_column(self.text.behind_bytes(span[0]))

    def alternative(self, rule, number):
        """An alternative as it is written, without its action code, and where it is."""
        it = self.rules[rule]["alternatives"][number]
        symbols = it["expr"]["symbols"]
        text = " ".join(self.written(symbol) for symbol in symbols) or "(nothing)"
        if it["condition"]:
            text += " " + self.condition(it["condition"])
        return text, self.place(it["span"])

    def written(self, symbol):
        if self.data is None:
            return symbol_text(symbol)
        return " ".join(self.data[symbol["span"][0]:symbol["span"][1]].decode(errors="replace").split())

    def condition(self, it):
        operator = {"Equals": "==", "NotEquals": "!=", "Match": "~~", "NotMatch": "!~"}[it["op"]]
        return "if %s %s %s" % (it["lhs"], operator, json.dumps(it["rhs"], ensure_ascii=False))

    def texts(self, way, name):
        """The productions of a nonterminal, or the alternatives of a rule."""
        if way == "explain":
            return [it.text() for it in self.productions[name]]
        return [self.alternative(name, it)[0] for it in range(len(self.rules[name]["alternatives"]))] if name in self.rules else []

    def production(self, name, number):
        """A production, and where what it is made from is written."""
        it = self.productions[name][number]
        if it.rule is not None:
            return it.text(), self.alternative(it.rule, it.alternative)[1]
        return it.text(), "%s, %s" % (self.place(it.span), it.origin)

    # ---- the terminal of a word

    def plain(self, text):
        """The shortest text that stands for a terminal in trees and sentences: without quotes, if no other symbol reads so."""
        value = self.terminals.get(text)
        if not isinstance(value, dict) or "Literal" not in value or "Quoted" not in value["Literal"]:
            return text
        word = value["Literal"]["Quoted"]
        is_plain = re.fullmatch(r"[^\s\[\]\"#~@\x00-\x1f\x7f]+", word) and word not in self.terminals and not self.named(word)
        return word if is_plain else text

    def terminal_of(self, word):
        """The terminal that a word names, by its text, its name, or as a token that its pattern matches; or None."""
        if word in self.terminals:
            return word
        quoted = terminal_text({"Literal": {"Quoted": word}})
        if quoted in self.terminals:
            return quoted
        found = [it for it in self.entries if self.matches(it["match_literal"], word)]
        if not found:
            return None
        name, held = variant(max(found, key=lambda it: it["precedence"])["user_name"])
        return terminal_text(held) if name == "Terminal" and terminal_text(held) in self.terminals else None

    def matches(self, literal, word):
        """Whether an entry of the tokenizer matches a word, as far as Python reads its pattern."""
        kind, text = variant(literal)
        try:
            return word == text if kind == "Quoted" else bool(re.fullmatch(text, word))
        except (re.error, RecursionError, OverflowError):
            return False


def rules_of(tree):
    return [held for name, held in map(variant, tree["items"]) if name == "Nonterminal"]


# ---- the text of a symbol, for a tree without a text

def symbol_text(symbol):
    kind = symbol["kind"]
    if isinstance(kind, str):
        return {"Lookahead": "@L", "Lookbehind": "@R"}.get(kind, "!")
    name, held = variant(kind)
    if name == "Terminal":
        return terminal_text(held)
    if name == "Expr":
        return "(%s)" % " ".join(map(symbol_text, held["symbols"]))
    if name == "Macro":
        return "%s<%s>" % (held["name"], ", ".join(map(symbol_text, held["args"])))
    if name == "Repeat":
        operator, count = variant(held["op"])
        return symbol_text(held["symbol"]) + {"Star": "*", "Plus": "+", "Question": "?"}.get(operator, "{%s}" % count)
    if name == "Choose":
        return "<%s>" % symbol_text(held)
    if name in ("Name", "Tuple"):
        return "<%s:%s>" % (tuple_text({"Tuple": held[0]}) if name == "Tuple" else name_text(held[0]), symbol_text(held[1]))
    return held


def name_text(value):
    return ("mut " if value["mutable"] else "") + value["name"]


def tuple_text(value):
    name, held = variant(value)
    return name_text(held) if name == "Name" else "(%s)" % ", ".join(map(tuple_text, held["tuples"]))
