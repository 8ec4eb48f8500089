"""Texts of tokens: how a terminal is shown in a sentence, examples of a token's pattern, and the tokens of a sentence that is given.

The text of a regular expression is an example that it matches. Only plain patterns have one: characters, classes, groups, choices and
repeats. Any other is shown as it is written.
"""
import functools
import json
import re
import warnings

try:
    import re._constants as parts
    import re._parser as parser
except ImportError:
    import sre_constants as parts
    import sre_parse as parser

PREFERRED = "0a1bxyzA_ \"'+-*/.,"
LONGEST = 12
CLASSES = {parts.CATEGORY_DIGIT: "0", parts.CATEGORY_WORD: "a", parts.CATEGORY_SPACE: " ", parts.CATEGORY_NOT_DIGIT: "a",
           parts.CATEGORY_NOT_WORD: "+", parts.CATEGORY_NOT_SPACE: "a"}


class NoExample(Exception):
    """No example is found of a pattern."""


# ---- examples

def examples(pattern):
    """Some texts that a pattern matches as a whole, the plainest first."""
    compiled, found = compiled_pattern(pattern), []
    if compiled is None:
        return []
    tree = parser.parse(pattern)
    for more in range(3):
        for first in PREFERRED[:5]:
            try:
                text = example(tree, more, first)
            except NoExample:
                continue
            if text not in found and len(text) <= LONGEST and text.isprintable() and text.strip() == text != "" and compiled.fullmatch(text):
                found.append(text)
    return found


def example(tree, more, first):
    return "".join(of_part(kind, held, more, first) for kind, held in tree)


def of_part(kind, held, more, first):
    """An example of a part: repeats go `more` times more than they must, and `first` is the character that is preferred."""
    if kind is parts.LITERAL:
        return chr(held)
    if kind is parts.ANY:
        return first
    if kind is parts.NOT_LITERAL:
        return next(it for it in first + PREFERRED if it != chr(held))
    if kind is parts.IN:
        return of_class(held, first)
    if kind is parts.BRANCH:
        return example(held[1][more % len(held[1])], more, first)
    if kind is parts.SUBPATTERN:
        return example(held[-1], more, first)
    if kind in (parts.MAX_REPEAT, parts.MIN_REPEAT):
        least, most, what = held
        return "".join(example(what, 0, first) for _ in range(min(least + more, int(most))))
    if kind is parts.AT:
        return ""
    raise NoExample


def of_class(members, first):
    is_negated = members[0][0] is parts.NEGATE
    if is_negated:
        return next((it for it in first + PREFERRED if not any(has(it, *member) for member in members[1:])), "~")
    for it in first + PREFERRED:
        if any(has(it, *member) for member in members):
            return it
    kind, held = members[0]
    return CLASSES[held] if kind is parts.CATEGORY else chr(held[0] if kind is parts.RANGE else held)


def has(character, kind, held):
    if kind is parts.LITERAL:
        return ord(character) == held
    if kind is parts.RANGE:
        return held[0] <= ord(character) <= held[1]
    return re.fullmatch({parts.CATEGORY_DIGIT: r"\d", parts.CATEGORY_WORD: r"\w", parts.CATEGORY_SPACE: r"\s", parts.CATEGORY_NOT_DIGIT: r"\D",
                         parts.CATEGORY_NOT_WORD: r"\W", parts.CATEGORY_NOT_SPACE: r"\S"}.get(held, "(?!)"), character) is not None


# ---- terminals

def literal_of(terminal):
    """The kind and the text of a literal, or None: ("Quoted", ..) or ("Regex", ..)."""
    if isinstance(terminal, dict) and "Literal" in terminal:
        (found,) = terminal["Literal"].items()
        return found
    return None


class Tokens:
    """The terminals of a grammar, with their texts."""

    def __init__(self, grammar):
        self.terminals = {key: json.loads(key) for key in grammar.terminals()}
        literals = [literal_of(it) for it in self.terminals.values()]
        self.quoted = {text for it in literals if it for kind, text in [it] if kind == "Quoted"}
        self.patterns = {key: [it[1]] for key, terminal in self.terminals.items() for it in [literal_of(terminal)] if it and it[0] == "Regex"}
        self.literals = {key: it[1] for key, terminal in self.terminals.items() for it in [literal_of(terminal)] if it and it[0] == "Quoted"}
        self.add_entries(grammar.whole.get("intern_token"))
        self.shown = {key: self.text(key) for key in self.terminals}

    def add_entries(self, intern):
        """The literals and patterns that a match block gives to names."""
        keys = {terminal["Bare"]: key for key, terminal in self.terminals.items() if isinstance(terminal, dict) and "Bare" in terminal}
        for entry in intern["match_entries"] if intern else ():
            (kind, text), = entry["match_literal"].items()
            named = entry["user_name"].get("Terminal") if isinstance(entry["user_name"], dict) else None
            if isinstance(named, dict) and named.get("Bare") in keys:
                key = keys[named["Bare"]]
                if kind == "Regex":
                    self.patterns.setdefault(key, []).append(text)
                else:
                    self.literals[key] = text
                    self.quoted.add(text)

    def text(self, key):
        """How a terminal is shown: a bare one by its name, a pattern by an example."""
        terminal, literal = self.terminals[key], literal_of(self.terminals[key])
        if literal is None:
            return "!" if terminal == "Error" else terminal["Bare"]
        if literal[0] == "Quoted":
            is_plain = literal[1].isprintable() and literal[1].strip() == literal[1] != ""
            return literal[1] if is_plain else json.dumps(literal[1], ensure_ascii=False)
        return self.example(key) or 'r"%s"' % literal[1]

    def example(self, key):
        """An example text of a terminal: of a pattern one that is no literal, and of no other pattern, if there is one."""
        if key in self.literals:
            return self.literals[key]
        found = [it for pattern in self.patterns.get(key, ()) for it in examples(pattern) if it not in self.quoted]
        others = [pattern for other, of in self.patterns.items() if other != key for pattern in of]
        return next((it for it in found if not any(matches(pattern, it) for pattern in others)), found[0] if found else None)

    # ---- the tokens of a sentence

    def of_sentence(self, text):
        """The terminals of a sentence; ValueError says where there is none."""
        found, at = [], 0
        while True:
            at += len(text[at:]) - len(text[at:].lstrip())
            if at == len(text):
                return found
            taken = max(self.at(text, at), default=None, key=lambda it: it[:2])
            if taken is None:
                raise ValueError("no terminal of the grammar begins at `%s`" % text[at:at + 20])
            found.append(taken[2])
            at += taken[0]

    def at(self, text, at):
        """The terminals that stand at an offset: length, rank, terminal. Of one length a literal is before a name, a name before a pattern."""
        for key, terminal in self.terminals.items():
            names = {self.literals.get(key): 3, "!" if terminal == "Error" else terminal.get("Bare"): 2}
            literal = literal_of(terminal)
            if literal:
                names["%s%s" % ("r" if literal[0] == "Regex" else "", '"%s"' % literal[1])] = 3
            for name, rank in names.items():
                if name and text.startswith(name, at) and is_whole(text, at, at + len(name)):
                    yield len(name), rank, key
            for pattern in self.patterns.get(key, ()):
                found = compiled_pattern(pattern) and compiled_pattern(pattern).match(text, at)
                if found and found.end() > at:
                    yield found.end() - at, 1, key


def is_whole(text, start, end):
    """Whether no word goes on where a part of a text ends."""
    return not (end < len(text) and is_of_word(text[end - 1]) and is_of_word(text[end]))


def is_of_word(character):
    return character.isalnum() or character == "_"


@functools.lru_cache(maxsize=None)
def compiled_pattern(pattern):
    """A pattern for Python, if it is one that means the same there as in Rust; a class in a class is none."""
    try:
        with warnings.catch_warnings():
            warnings.simplefilter("error")
            return re.compile(pattern, re.S)
    except (re.error, OverflowError, RecursionError, Warning):
        return None


def matches(pattern, text):
    found = compiled_pattern(pattern)
    return bool(found and found.fullmatch(text))
