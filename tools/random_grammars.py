"""Random grammars, as texts: the same seed always gives the same one. Two of three are meant to be right, though types may disagree; the
others have some mistakes: a name that is not declared, an argument too many, a wrong attribute, a terminal without a pattern.
"""
import random

LITERALS = ('"a"', '"b"', '"+"', '"("', '")"', '"if"', 'r"[0-9]+"', 'r"[a-z]+"', '"\\""', '"é"', 'r#"x"y"#', '"\\n"')
BARE = ("ID", "NUM", "WS")
ODD_NAMES = ("__S", "N01", "Expr", "X")
CFGS = ('feature = "f"', 'feature = "g"', 'not(feature = "f")', 'all(feature = "f", feature = "g")', 'any(feature = "f", feature = "g")',
        'not(all(feature = "g"))')
WRONG_CFGS = ("all()", "any()", "bogus", "feature", "not()", "not(a, b)", 'not(feature = "f", feature = "g")')
SIMPLE_TYPES = ("u32", "()", "String", "i64", "u8", "std::string::String", "::a::B", "crate::X", "&'input str", "&str", "&mut u8",
                "Cow<'static, str>")
TYPES = ("Vec<{0}>", "Option<{0}>", "[{0}]", "dyn Tr<{0}>", "({0}, {1})", "HashMap<{0}, {1}>", "Box<dyn Fn({0}) -> {1}>")
CODES = ("f(<>)", "<>", "()", "vec![<>]", "Some(<>)", "(<>)", "h(x)", "{ let a = 1; g(<>) }", "x", "|a| { a }")
CODES_OF_NAMES = ("f(<>)", "P { <> }", "S { a: 1, <> }", "g(x)", "(<>)", "{ let a = 1; g(<>) }", "h(<>, <>)", "Q { <>, }",
                  "Foo::<u8> { <> }.x")
PATTERNS = ("Tok::A", "Tok::B(..)", "Tok::C(<{0}>)", "Tok::D {{ x: <{0}>, .. }}", "_", "(Tok::E, <u8>)", "'c'", "Tok::F(x, <u8>)")
SIDES = ("left", "right", "none", "all")


def listed(parts):
    return ", ".join(parts)


class Maker:
    """What the seed selects for a grammar, and what its parts may name."""

    def __init__(self, number):
        self.chance = random.Random(number)
        self.is_wrong = self.may(0.35)
        self.has_tokens = self.may(0.55)
        self.has_locations = not self.has_tokens or self.may(0.5)
        self.rules = ["N%d" % i for i in range(self.number(1, 5))] + [self.one(*ODD_NAMES)] * self.may(0.2)
        self.macros = {"M%d" % i: ["T%d" % j for j in range(self.number(1, 3))] for i in range(self.one(0, 0, 1, 2, 3))}
        self.conditional = {name for name in self.macros if self.may(0.4)}
        self.literals = self.chance.sample(LITERALS, self.number(2, 7))
        self.bare = [name for name in BARE if self.may(0.4)]
        self.arguments = []
        self.is_lowest = True

    def one(self, *of):
        return self.chance.choice(of)

    def may(self, part):
        return self.chance.random() < part

    def errs(self, part):
        return self.is_wrong and self.may(part)

    def number(self, least, most):
        return self.chance.randint(least, most)

    # ---- types and symbols

    def type(self, depth=0):
        if depth == 2 or self.may(0.5):
            return self.one(*SIMPLE_TYPES, *self.arguments * 3)
        return self.one(*TYPES).format(self.type(depth + 1), self.type(depth + 1))

    def terminal(self):
        return self.one(*self.bare) if self.bare and self.may(0.3) else self.one(*self.literals)

    def argument_of(self, macro, depth):
        if macro in self.conditional and not self.errs(0.1):
            return self.one(*[it for it in self.literals if it.startswith('"')] or ['"a"'])
        return self.repeated(depth)

    def call(self, depth):
        macro = self.one(*self.macros)
        count = max(1, len(self.macros[macro]) + (self.one(-1, 1) if self.errs(0.05) else 0))
        return "%s<%s>" % (macro, listed(self.argument_of(macro, depth) for _ in range(count)))

    def group(self, depth):
        forms = [self.one("%s", "%s", "<%s>") if not self.errs(0.05) else "<x:%s>" for _ in range(self.number(0, 3))]
        return "(%s)" % " ".join(form % self.repeated(depth) for form in forms)

    def symbol(self, depth):
        kind = self.number(0, 19)
        if kind < 5:
            return self.one(*self.rules)
        if kind < 7 and self.arguments:
            return self.one(*self.arguments)
        if kind < 9 and self.macros and depth < 3:
            return self.call(depth + 1)
        if kind == 9 and depth < 3:
            return self.group(depth + 1)
        if kind == 10 and (self.has_locations or self.may(0.05)):
            return self.one("@L", "@R")
        if kind == 11 and self.may(0.3):
            return "!"
        if kind == 12 and self.errs(0.2):
            return self.one("Undeclared", "error", *self.macros)
        return self.terminal()

    def repeated(self, depth):
        symbol = self.symbol(depth)
        while self.may(0.22):
            symbol += self.one("*", "+", "?")
        return symbol

    # ---- alternatives

    def symbols(self, count, mode):
        """The symbols of an alternative, and whether some have names."""
        names = self.chance.sample(("x", "y", "z", "mut w", "v1", "v2", "v3"), 7)
        named = False
        for _ in range(count):
            symbol = self.repeated(0)
            if mode == "chosen" and self.may(0.5) or self.errs(0.02):
                symbol = "<%s>" % symbol
            elif mode == "named" and self.may(0.7) or self.errs(0.02):
                name = "(%s, %s)" % (names.pop(), self.one("s", "mut t", "(u, i)")) if self.may(0.04) else names.pop()
                symbol, named = "<%s:%s>" % (name, symbol), True
            yield symbol, named

    def code(self, count, mode, named, typed):
        """The code of an alternative, or none."""
        if self.errs(0.03):
            return self.one(None, *CODES, *CODES_OF_NAMES)
        if named:
            return self.one(*CODES_OF_NAMES)
        if not typed or count and self.may(0.45):
            return None
        return self.one(*CODES, *["<> + <>", "k(<>, <>)"] * (count == 2 and mode == "plain"))

    def alternative(self, typed, condition="", attributes=""):
        count, mode = self.one(0, 1, 1, 1, 2, 2, 3, 4), self.one("plain", "plain", "chosen", "named" if typed else "plain")
        symbols = list(self.symbols(count, mode))
        code = self.code(count, mode, any(named for _, named in symbols), typed)
        text = " ".join(symbol for symbol, _ in symbols)
        if condition and symbols:
            text += " if " + condition
        if code is not None:
            text += (" =>? " if self.may(0.1) else " => ") + code
        return attributes + (text or ("=> ()" if typed else self.repeated(0)))

    def cfg(self):
        return "#[cfg(%s)] " % self.one(*WRONG_CFGS if self.errs(0.1) else CFGS)

    def condition(self, name):
        if name not in self.conditional or self.may(0.4):
            return ""
        argument = "Zz" if self.errs(0.05) else self.one(*self.arguments)
        operator = self.one("==", "!=", "~~", "!~")
        return "%s %s %s" % (argument, operator, '"("' if self.errs(0.05) else self.one('"a"', '"b"', '"[ab]"', '"x"'))

    def alternatives(self, name, typed):
        return [self.alternative(typed, self.condition(name), self.cfg() if self.may(0.07) else "") for _ in range(self.number(1, 4))]

    # ---- levels

    def level_attributes(self, place, level):
        """The attributes of an alternative at this place, which may begin this level."""
        if self.errs(0.06):
            return self.one("", '#[precedence(level="x")] ', '#[precedence(lvl="1")] ', "#[precedence] ", '#[assoc(side="up")] ')
        side = '#[assoc(side="%s")] ' % self.one(*SIDES)
        if place == 0 or self.may(0.65):
            self.is_lowest = place == 0
            return '#[precedence(level="%d")] ' % level + (side if place and self.may(0.7) else "")
        return side if not self.is_lowest and self.may(0.2) else ""

    def levels(self, name, typed):
        """Alternatives with levels, most of them over the rule itself."""
        all_rules, self.rules = self.rules, self.rules + [name] * 6
        found, level = [], self.number(0, 2)
        for place in range(self.number(2, 5)):
            attributes = self.level_attributes(place, level)
            found.append(self.alternative(typed, "", (self.cfg() if self.may(0.06) else "") + attributes))
            level += self.one(0, -1) if self.errs(0.1) else self.one(1, 1, 2)
        self.rules = all_rules
        return found

    # ---- rules

    def head(self, name):
        attributes = self.cfg() if self.may(0.02) else ""
        is_inline = self.may(0.12)
        attributes += "#[inline] " * is_inline
        if self.errs(0.03):
            attributes += self.one("#[foo] ", "#[inline] ", '#[precedence(level="1")] ', "#[cfg] ")
        is_private = name in self.macros or is_inline and not self.errs(0.2)
        return attributes + ("" if is_private else self.one("", "", "pub ", "pub ", "pub(crate) ", "pub(in a::b) ")) + name

    def rule(self, name):
        self.arguments = self.macros.get(name, [])
        typed = self.may(0.8)
        text = self.head(name) + ("<%s>" % listed(self.arguments) if self.arguments else "") + (": " + self.type() if typed else "")
        has_levels = self.may(0.25) and (not self.arguments or self.errs(0.2))
        found = self.levels(name, typed) if has_levels else self.alternatives(name, typed)
        self.arguments = []
        if len(found) == 1 and not has_levels and "if" not in found[0] and self.may(0.4):
            return "%s = %s;" % (text, found[0])
        return "%s = { %s%s };" % (text, listed(found), self.one("", ","))

    # ---- the rest of a grammar

    def conversions(self):
        for terminal in self.literals + self.bare:
            if not self.errs(0.06):
                yield "%s%s => %s" % (self.cfg() if self.may(0.03) else "", terminal, self.one(*PATTERNS).format(self.type(1)))
        if self.errs(0.05):
            yield self.literals[0] + " => Tok::Again"

    def extern_block(self):
        types = ("type Location = usize; ", "type Location = L; type Error = E2; ") if self.has_locations else ("", "type Error = E2; ")
        return "extern { %senum %s { %s } }" % (self.one(*types), self.one("Tok", "a::Tok", "Tok<'input>"), listed(self.conversions()))

    def match_items(self):
        for literal in self.literals:
            if self.may(0.5):
                yield literal if self.may(0.7) else "%s => %s" % (literal, self.one('"q"', "Q", literal))
        for name in self.bare:
            yield '%s => %s' % (self.one('r"%s+"' % name[0], '"%s"' % name.lower()), name)
        if self.may(0.3):
            yield self.one('r"\\s+" => { }', '"//" => { }')

    def match_block(self):
        items = list(self.match_items())
        self.chance.shuffle(items)
        cut = self.number(0, len(items))
        parts = [part for part in (items[:cut], items[cut:]) if part]
        if self.may(0.6):
            parts = [*parts[:-1], [*(parts or [[]])[-1], "_"]]
        return "match { %s }" % " } else { ".join(map(listed, parts)) if parts else ""

    def tokens(self):
        if self.has_tokens:
            return [self.extern_block()]
        types = self.one("type Error = E2;", "type Location = L;", "type Error = E2; type Location = L;", "")
        return ["extern { %s }" % types] * self.may(0.2) + [self.match_block()] * (bool(self.bare) or self.may(0.4))

    def first_line(self):
        parameters = [self.one("x: u32", "input: &'input str", "e: E", "y: &mut u8") for _ in range(self.number(1, 2))]
        if not self.may(0.2):
            return "grammar" + ("(%s)" % listed(parameters) if self.may(0.2) else "")
        is_implicit = not self.has_tokens and not self.errs(0.2)
        return "grammar" + ("<E>" if is_implicit else "<'input, E>") + (" where E: Clone + 'input" if self.may(0.5) else "")

    def text(self):
        rules = [self.rule(name) for name in [*self.rules, *self.macros]]
        if self.errs(0.08):
            rules.append(self.rule(self.one(*self.rules)))
        items = self.tokens() + rules
        if self.may(0.3):
            self.chance.shuffle(items)
        return "\n".join(["use std::x::Y;"] * self.may(0.1) + [self.first_line() + ";", *filter(None, items)]) + "\n"


def text_of(number):
    """The text of the grammar of that number."""
    return Maker(number).text()
