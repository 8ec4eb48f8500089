"""The written grammar as tools/conflicts shows it: alternatives as they are written, with line and column, and the names of macro instances,
repeats and groups."""
import re

from conflicts_readings import LIST, NODE

NAMES = re.compile(r'"(?:[^"\\]|\\.)*"|r#"(.*?)"#|([A-Za-z_][A-Za-z0-9_]*)', re.S)
ONE_LINE = re.compile(r"\s+")
REPEATS = ("StarEmpty", "PlusOne")


class Places:
    """The written rules of a grammar and, if it is known, the text."""

    def __init__(self, grammar, text):
        self.grammar, self.text = grammar, text
        self.levels = {name: origin["Written"]["rule"] for name, rows in grammar.table.items() for _, origin in rows
                       if isinstance(origin, dict) and not grammar.written[origin["Written"]["rule"]]["args"]}

    def alternative(self, part):
        return self.grammar.written[part.what]["alternatives"][part.number]

    def characters(self, span):
        return [self.text.behind_bytes(at) for at in span]

    def words(self, span):
        """The text at a span, on one line."""
        start, end = self.characters(span)
        return ONE_LINE.sub(" ", self.text.text[start:end]).strip()

    def symbols(self, part):
        """The symbols of a node's alternative, as they are written; None if there is no text."""
        if self.text is None:
            return None
        return [self.words(it["span"]) for it in self.alternative(part)["expr"]["symbols"]]

    def alternative_text(self, part):
        symbols = self.symbols(part)
        if symbols is None:
            return "alternative %d" % part.number
        condition = self.alternative(part)["condition"]
        return " ".join(symbols + (["if " + self.words(condition["span"])] if condition else [])) or "(nothing)"

    def rule(self, part):
        """The name of a node's rule, of a macro with its arguments."""
        return self.name(part.name) if self.grammar.written[part.what]["args"] else part.what

    def name(self, name):
        """The name of a nonterminal as it would be written: no level of a rule has a name."""
        def one(found):
            pattern, name = found.groups()
            if pattern is not None:
                return found.group() if '"' in pattern else 'r"%s"' % pattern
            return self.levels.get(name, name) if name else found.group()
        return NAMES.sub(one, name)

    def at(self, span):
        """Line and column where a span begins; None if there is no text."""
        return self.text and self.text.line_and_column(self.characters(span)[0])

    def at_text(self, span):
        found = self.at(span)
        return "%d:%d" % found if found else "bytes %d..%d" % tuple(span)

    def shown(self, part):
        """A node's rule and alternative, and where the alternative is."""
        return "%s = %s" % (self.rule(part), self.alternative_text(part)), self.at_text(self.alternative(part)["span"])

    def symbol_at(self, part, at):
        """A symbol of a node's alternative, and where it is."""
        symbol = self.alternative(part)["expr"]["symbols"][at]
        return self.symbols(part)[at] if self.text else "symbol %d" % at, self.at_text(symbol["span"])

    def is_repeat(self, part):
        return self.origin(part) in REPEATS

    def is_option(self, part):
        return self.origin(part) in ("QuestionSome", "QuestionEmpty")

    def origin(self, part):
        """The origin of the first production of a list's nonterminal."""
        return self.grammar.table[part.name][0][1] if part.kind == LIST else None

    def head(self, part):
        """What a tree's root is: the alternative of a node, the nonterminal of a list."""
        return (part.what, part.number) if part.kind == NODE else (part.name, None)

    def record(self, part):
        """A node's alternative for `--json`."""
        span = self.alternative(part)["span"]
        at = self.at(span)
        return {"rule": part.what, "name": self.rule(part), "alternative": part.number, "text": self.alternative_text(part), "bytes": span,
                "line": at[0] if at else None, "column": at[1] if at else None}
