"""Reads the rules of a LALRPOP grammar from its tokens; a part of tools/tree.

Each method reads one part of a grammar and returns its JSON form. The span of a part goes from its first token to its last one; what has
no token has no span. Code is one token, which goes on to the comma or bracket behind it, blanks included: a conversion, a match item or an
alternative that ends with it goes as far. A pattern or a mapping is read from the tokens of that code.
"""
from tree_tokens import Scanner, Wrong, stripped

ESCAPES = {"\\": "\\", '"': '"', "n": "\n", "r": "\r", "t": "\t"}
OPERATORS = {"==": "Equals", "!=": "NotEquals", "~~": "Match", "!~": "NotMatch"}
REPEATS = {"*": "Star", "+": "Plus", "?": "Question"}
SHOWN = {"name": "a name", "call": "a name and `<`", "escape": "a name in backquotes", "lifetime": "a lifetime", "string": "a text",
         "regex": "a regular expression", "char": "a character", "code": "`=>`", "fallible": "`=>?`", "use": "`use`",
         "shebang": "`#![..]`", "count": "a count", "end": "the end"}


def shown(kind):
    return SHOWN.get(kind, "`%s`" % kind)


def offsets(text):
    """For each character the number of bytes before it, and the number of all."""
    found, count = [], 0
    for c in text:
        found.append(count)
        count += len(c.encode())
    return found + [count]


class Reader:
    """Reads a part of a text, token by token."""

    def __init__(self, text, bytes_before=None, start=0, end=None):
        self.text = text
        self.bytes_before = bytes_before or offsets(text)
        self.scanner = Scanner(text, start, len(text) if end is None else end)
        self.tokens, self.count = [], 0                     # those that were cut so far, and how many of them were read
        self.behind = start                                 # behind the last one that was read

    # ---- tokens

    def peek(self, ahead=0):
        while len(self.tokens) <= self.count + ahead:
            self.tokens.append(self.scanner.next())
        return self.tokens[self.count + ahead]

    def sees(self, *kinds):
        """Whether the next tokens are of these kinds."""
        return all(self.peek(i).kind == kind for i, kind in enumerate(kinds))

    def take(self, kind=None):
        found = self.peek()
        if kind is not None and found.kind != kind:
            self.fail(shown(kind))
        self.count += 1
        self.behind = found.end
        return found

    def takes(self, kind):
        """Reads a token if it is of this kind; whether it was."""
        if self.peek().kind != kind:
            return False
        self.take()
        return True

    def fail(self, what):
        token = self.peek()
        why = "%s was expected, not %s" % (what, shown(token.kind))
        passed = self.scanner.passed_over
        if passed is not None and passed == token.start - 1:
            why += "; LALRPOP passes over the character behind `#![..]`, so a blank is to stand there"
        if token.kind == "end":
            raise Wrong(why, self.behind)
        # (code goes on for long: its arrow alone is shown)
        raise Wrong(why, token.start, token.start + 2 if token.kind in ("code", "fallible") else token.end)

    def span(self, start):
        """From an offset to behind the last token that was read."""
        return [self.bytes_before[start], self.bytes_before[self.behind]]

    def span_of(self, token):
        return [self.bytes_before[token.start], self.bytes_before[token.end]]

    # ---- lists

    def list_until(self, closing, read):
        """Parts with a comma between two and maybe one behind the last, up to a sign, which is read as well."""
        found = []
        while not self.takes(closing):
            found.append(read())
            if not self.takes(","):
                if not self.sees(closing):
                    self.fail("`,` or " + shown(closing))
        return found

    def list_before(self, closing, read):
        """The same; the sign is not read."""
        found = []
        while not self.sees(closing):
            found.append(read())
            if not self.takes(","):
                break
        return found

    def joined(self, is_first, read):
        """Parts with `+` between two and maybe one behind the last; there may be none."""
        found = []
        while is_first():
            found.append(read())
            if not self.takes("+"):
                break
        return found

    # ---- names and literals

    def name(self, *others):
        """A name; a name and `<` is one if no macro is allowed there."""
        if self.peek().kind not in ("name",) + others:
            self.fail("a name")
        return self.take().said

    def any_name(self):
        return self.name("call")

    def string(self):
        """A text without its escapes."""
        token = self.take("string")
        said, at = "", 0
        while at < len(token.said):
            if token.said[at] == "\\":
                at += 1
                if token.said[at] not in ESCAPES:
                    raise Wrong("there is no such escape; a text has `\\\\`, `\\\"`, `\\n`, `\\r` and `\\t`", token.start + at, token.start + 2 + at)
                said += ESCAPES[token.said[at]]
            else:
                said += token.said[at]
            at += 1
        return said

    def literal(self):
        if self.sees("string"):
            return {"Quoted": self.string()}
        if self.sees("regex"):
            return {"Regex": self.take().said}
        return self.fail("a literal")

    def terminal(self):
        if self.peek().kind in ("name", "call"):
            return {"Bare": self.take().said}
        return {"Literal": self.literal()}

    def path(self):
        absolute = self.takes("::")
        ids = [self.any_name()]
        while self.takes("::"):
            ids.append(self.any_name())
        return {"absolute": absolute, "ids": ids}

    # ---- types

    def type_parameter(self):
        if self.sees("lifetime"):
            return {"Lifetime": self.take().said}
        return {"Id": self.any_name()}

    def forall(self):
        if not self.takes("for"):
            return []
        self.take("<")
        return self.list_until(">", self.type_parameter)

    def returned(self):
        return self.ty() if self.takes("->") else None

    def argument_of_type(self):
        return {"Lifetime": self.take().said} if self.sees("lifetime") else self.ty()

    def trait_object(self):
        forall, path = self.forall(), self.path()
        if forall and not self.sees("("):
            self.fail("`(`")
        if self.takes("("):
            return {"Fn": {"forall": forall, "path": path, "parameters": self.list_until(")", self.ty), "ret": self.returned()}}
        return {"TraitObject": {"path": path, "types": self.list_until(">", self.argument_of_type) if self.takes("<") else []}}

    def ty(self):
        if self.takes("("):
            return {"Tuple": self.list_until(")", self.ty)}
        if self.takes("["):
            inner = self.ty()
            self.take("]")
            return {"Slice": inner}
        if self.takes("#"):
            inner = self.symbol()
            self.take("#")
            return {"OfSymbol": inner["kind"]}
        if self.takes("&"):
            lifetime = self.take().said if self.sees("lifetime") else None
            mutable = self.takes("mut")
            return {"Ref": {"lifetime": lifetime, "mutable": mutable, "referent": self.ty()}}
        if self.takes("dyn"):
            return self.trait_object()
        if self.peek().kind not in ("name", "call", "::"):
            self.fail("a type")
        path = self.path()
        if self.takes("<"):
            return {"Nominal": {"path": path, "types": self.list_until(">", self.argument_of_type)}}
        if path["absolute"] or len(path["ids"]) > 1:
            return {"Nominal": {"path": path, "types": []}}
        return {"Id": path["ids"][0]}

    # ---- where clauses

    def bound_parameter(self):
        if self.sees("lifetime"):
            return {"Lifetime": self.take().said}
        if self.sees("name", "="):
            name = self.take().said
            self.take("=")
            return {"Associated": [name, self.ty()]}
        return {"TypeParameter": self.ty()}

    def bound(self):
        if self.sees("lifetime"):
            return {"Lifetime": self.take().said}
        forall, path = self.forall(), self.path()
        if self.takes("("):
            return {"Fn": {"forall": forall, "path": path, "parameters": self.list_until(")", self.ty), "ret": self.returned()}}
        parameters = self.list_until(">", self.bound_parameter) if self.takes("<") else []
        return {"Trait": {"forall": forall, "path": path, "parameters": parameters}}

    def where_clause(self):
        if self.sees("lifetime"):
            lifetime = self.take().said
            self.take(":")
            bounds = self.joined(lambda: self.sees("lifetime"), lambda: self.take().said)
            return {"Lifetime": {"lifetime": lifetime, "bounds": bounds}}
        forall, ty = self.forall(), self.ty()
        self.take(":")
        bounds = self.joined(lambda: self.peek().kind in ("lifetime", "for", "::", "name", "call"), self.bound)
        return {"OfType": {"forall": forall, "ty": ty, "bounds": bounds}}

    # ---- attributes

    def attribute_body(self):
        token = self.peek()
        name = self.name()
        if self.takes("("):
            arg = {"Paren": self.list_until(")", self.attribute_body)}
        else:
            arg = {"Equal": self.string()} if self.takes("=") else "Empty"
        return {"id_span": self.span_of(token), "id": name, "arg": arg}

    def attributes(self):
        found = []
        while self.takes("#"):
            self.take("[")
            found.append(self.attribute_body())
            self.take("]")
        return found

    # ---- symbols

    def pattern_name(self):
        mutable = self.takes("mut")
        return {"mutable": mutable, "name": self.any_name()}

    def pattern_tuple(self):
        def part():
            return {"Tuple": self.pattern_tuple()} if self.sees("(") else {"Name": self.pattern_name()}
        self.take("(")
        return {"tuples": self.list_until(")", part)}

    def names_a_tuple(self):
        """Whether a `(` begins a tuple of names: whether its closing bracket has a colon behind it."""
        at, depth = 0, 0
        while True:
            kind = self.peek(at).kind
            if kind not in ("(", ")", ",", "name", "mut"):
                return False
            depth += (kind == "(") - (kind == ")")
            at += 1
            if depth == 0:
                return self.peek(at).kind == ":"

    def symbol(self):
        """A symbol of an alternative, a group or a call: selected, named, or with repeats."""
        start = self.peek().start
        if not self.takes("<"):
            return self.repeated()
        if self.sees("mut") or self.sees("name", ":"):
            name = self.pattern_name()
            self.take(":")
            kind = {"Name": [name, self.repeated()]}
        elif self.sees("(") and self.names_a_tuple():
            names = self.pattern_tuple()
            self.take(":")
            kind = {"Tuple": [names, self.repeated()]}
        else:
            kind = {"Choose": self.repeated()}
        self.take(">")
        return {"span": self.span(start), "kind": kind}

    def repeated(self):
        start = self.peek().start
        kind = self.kind()
        found = {"span": self.span(start), "kind": kind}
        while self.peek().kind in (*REPEATS, "count"):
            op = self.count_of() if self.sees("count") else REPEATS[self.take().kind]
            found = {"span": self.span(start), "kind": {"Repeat": {"op": op, "symbol": found}}}
        return found

    def count_of(self):
        """`{N}`, so often and no oftener."""
        token = self.take("count")
        if int(token.said) > 65535:
            raise Wrong("a count is at most 65535", token.start, token.end)
        return {"Times": int(token.said)}

    def kind(self):
        if self.sees("call"):
            name = self.take().said
            self.take("<")
            return {"Macro": {"name": name, "args": self.list_until(">", self.symbol)}}
        if self.peek().kind in ("string", "regex"):
            return {"Terminal": {"Literal": self.literal()}}
        if self.takes("("):
            inner = self.symbols()
            self.take(")")
            return {"Expr": {"symbols": inner}}
        for sign, kind in (("@L", "Lookahead"), ("@R", "Lookbehind"), ("!", "Error")):
            if self.takes(sign):
                return kind
        if self.sees("name"):
            return {"AmbiguousId": self.take().said}
        if self.sees("escape"):
            return {"Nonterminal": self.take().said}
        return self.fail("a symbol")

    def symbols(self):
        found = []
        while self.peek().kind in ("<", "call", "string", "regex", "(", "@L", "@R", "!", "name", "escape"):
            found.append(self.symbol())
        return found

    # ---- rules

    def condition(self):
        if not self.takes("if"):
            return None
        start = self.peek().start
        lhs = self.name()
        if self.peek().kind not in OPERATORS:
            self.fail("an operator of a condition")
        op = OPERATORS[self.take().kind]
        rhs = self.string()
        return {"span": self.span(start), "lhs": lhs, "rhs": rhs, "op": op}

    def action(self):
        for kind, variant in (("code", "User"), ("fallible", "Fallible")):
            if self.sees(kind):
                token = self.take()
                return {variant: stripped(self.text[token.said:token.end])}
        for kind, variant in (("=>@L", "Lookahead"), ("=>@R", "Lookbehind")):
            if self.takes(kind):
                return variant
        return None

    def alternative(self):
        attributes, start = self.attributes(), self.peek().start
        symbols = self.symbols()
        condition, action = self.condition(), self.action()
        if not symbols and action is None:
            self.fail("a symbol or code")
        return {"span": self.span(start), "expr": {"symbols": symbols}, "condition": condition, "action": action,
                "attributes": attributes}

    def alternatives(self):
        if self.takes("{"):
            found = self.list_until("}", self.alternative)
            self.takes(";")
            return found
        found = [self.alternative()]
        self.take(";")
        return found

    def visibility(self):
        if not self.takes("pub"):
            return "Priv"
        if not self.takes("("):
            return {"Pub": None}
        variant = "PubIn" if self.takes("in") else "Pub"
        path = self.path()
        self.take(")")
        return {variant: path}

    def rule(self):
        attributes, visibility = self.attributes(), self.visibility()
        token, args = self.peek(), []
        if self.sees("call"):
            self.take()
            self.take("<")
            args = self.list_until(">", self.name)
        elif not self.takes("name") and not self.takes("escape"):
            self.fail("a rule")
        span = self.span(token.start)
        ty = self.ty() if self.takes(":") else None
        self.take("=")
        return {"visibility": visibility, "name": token.said, "attributes": attributes, "span": span, "args": args,
                "type_decl": ty, "alternatives": self.alternatives()}

    # ---- patterns of tokens

    def field(self):
        token = self.peek()
        name = self.any_name()
        self.take(":")
        return {"field_span": self.span_of(token), "field_name": name, "pattern": self.pattern()}

    def fields(self):
        """The fields of a pattern, and whether `..` ends them."""
        found = []
        while not self.takes("}"):
            if self.takes(".."):
                self.take("}")
                return [found, True]
            found.append(self.field())
            if not self.takes(",") and not self.sees("}"):
                self.fail("`,` or `}`")
        return [found, False]

    def pattern_kind(self):
        if self.takes("_"):
            return "Underscore"
        if self.takes(".."):
            return "DotDot"
        if self.takes("<"):
            chosen = self.ty()
            self.take(">")
            return {"Choose": chosen}
        if self.takes("("):
            return {"Tuple": self.list_until(")", self.pattern)}
        if self.sees("char"):
            return {"CharLiteral": self.take().said}
        if self.sees("string"):
            return {"String": self.string()}
        if self.peek().kind not in ("name", "call", "::"):
            self.fail("a pattern")
        path = self.path()
        if self.takes("("):
            return {"Enum": [path, self.list_until(")", self.pattern)]}
        if self.takes("{"):
            return {"Struct": [path] + self.fields()}
        return {"Path": path}

    def pattern(self):
        start = self.peek().start
        kind = self.pattern_kind()
        return {"span": self.span(start), "kind": kind}

    def mapping(self):
        if self.takes("{"):
            self.take("}")
            return "Skip"
        return {"Terminal": self.terminal()}

    def inside(self, token, read):
        """Reads what is in the code of a token."""
        inner = Reader(self.text, self.bytes_before, token.said, token.end)
        found = read(inner)
        inner.take("end")
        return found

    # ---- match and extern blocks

    def match_item(self):
        start = self.peek().start
        if self.takes("_"):
            return {"CatchAll": self.span(start)}
        literal = self.literal()
        if not self.sees("code"):
            return {"Unmapped": [literal, self.span(start)]}
        mapping = self.inside(self.take(), Reader.mapping)
        return {"Mapped": [literal, mapping, self.span(start)]}

    def match_block(self):
        token, contents = self.take("match"), []
        while True:
            self.take("{")
            contents.append({"items": self.list_until("}", self.match_item)})
            if not self.takes("else"):
                return {"contents": contents, "span": self.span_of(token)}

    def conversion(self):
        attributes, start = self.attributes(), self.peek().start
        terminal = self.terminal()
        pattern = self.inside(self.take("code"), Reader.pattern)
        return {"span": self.span(start), "attributes": attributes, "from": terminal, "to": pattern}

    def associated_types(self):
        found = []
        while self.takes("type"):
            token = self.peek()
            name = self.any_name()
            self.take("=")
            found.append({"type_span": self.span_of(token), "type_name": name, "type_ref": self.ty()})
            self.take(";")
        return found

    def extern_block(self):
        token = self.take("extern")
        self.take("{")
        types, enum = self.associated_types(), None
        if self.takes("enum"):
            start = self.peek().start
            name = self.ty()
            span = self.span(start)
            self.take("{")
            enum = {"type_name": name, "type_span": span, "conversions": self.list_until("}", self.conversion)}
            types += self.associated_types()
        self.take("}")
        return {"span": self.span_of(token), "associated_types": types, "enum_token": enum}

    # ---- the grammar

    def parameter(self):
        name = self.any_name()
        self.take(":")
        return {"name": name, "ty": self.ty()}

    def uses(self):
        found = []
        while self.sees("use"):
            found.append({"Use": self.take().said})
            self.take(";")
        return found

    def items(self):
        found = []
        while not self.sees("end"):
            if self.sees("use"):
                found += self.uses()
            elif self.sees("match"):
                found.append({"MatchToken": self.match_block()})
            elif self.sees("extern"):
                found.append({"ExternToken": self.extern_block()})
            else:
                found.append({"Nonterminal": self.rule()})
        return found

    def grammar(self):
        module_attributes = []
        while self.sees("shebang"):
            module_attributes.append(self.take().said)
        uses, attributes = self.uses(), self.attributes()
        token = self.take("grammar")
        type_parameters = self.list_until(">", self.type_parameter) if self.takes("<") else []
        parameters = self.list_until(")", self.parameter) if self.takes("(") else []
        where_clauses = self.list_before(";", self.where_clause) if self.takes("where") else []
        self.take(";")
        items = uses + self.items()
        return {"prefix": prefix(self.text), "span": self.span_of(token), "type_parameters": type_parameters,
                "parameters": parameters, "where_clauses": where_clauses, "items": items, "attributes": attributes,
                "module_attributes": module_attributes}


def prefix(text):
    """Two underscores, or the fewest more that are nowhere in the text."""
    found = "__"
    while found in text:
        found += "_"
    return found


def read(text):
    return Reader(text).grammar()
