"""The trees of tools/lexplain: read from lines of JSON or from a text in brackets, and printed as one or the other.

A text in brackets has, divided by blanks or line feeds:

    Rule[ .. ]  Rule#2[ .. ]    a node with its children; the bracket stands directly behind the name or the number
    if  "if"  NUM  r#"[0-9]+"#  a terminal, by its text or its name; a literal may lack its quotes, if nothing else has that text
    [ .. ]                      in a written tree: of a group a tree for each symbol, of a repeat one for each time
    @                           in a written tree: a location symbol, `@L` or `@R`
    Rule~                       the derivation of the shortest sentence of that rule or nonterminal; `~` may be left out

Without a number the children decide it. In a derivation tree names are those of the lowered grammar, such as `Sum2` or `(<Sum> ";")+`.
"""
import json
import re

from lexplain_grammar import NONTERMINAL, TERMINAL, terminal_text

LEAF, NODE, LIST, NOTHING = "leaf", "node", "list", "nothing"
KEYS = {"explain": ("nonterminal", "production"), "lower": ("rule", "alternative")}
QUOTED = re.compile(r'"(?:[^"\\]|\\.)*"|r#".*?"#', re.S)
BLANKS = re.compile(r"\s*")
WORD = re.compile(r"[^\s\[\]]+")
MOST_TEXTS = 6
NUMBER = re.compile(r"(?:#([0-9]+))?\[")


class WrongText(Exception):
    """A text that is no tree: the line, and why."""

    def __init__(self, line, what, is_fault=False):
        super().__init__("line %d: %s" % (line, what))
        self.is_fault = is_fault


class Tree:
    """A tree of one of both sides. `name` is the text of a terminal, or a node's nonterminal or rule; `number` the production or
    alternative; `shown` what people call it; `line` where it begins; `source` the derivation tree that it was made from."""

    def __init__(self, kind, name=None, number=None, children=(), shown=None, line=0, value=None, source=None):
        self.kind, self.name, self.number, self.children, self.line = kind, name, number, list(children), line
        self.shown, self.value, self.source, self.is_filled = shown or name, value, source, False

    def words(self):
        """The texts of the terminals."""
        found, waiting = [], [self]
        while waiting:
            it = waiting.pop()
            if it.kind == LEAF:
                found.append(it.name)
            waiting += reversed(it.children)
        return found


def below(tree, path):
    for at in path:
        tree = tree.children[at]
    return tree


# ---- lines of JSON

def trees_of_lines(text, way):
    """The trees that lines of JSON make, each node behind its children."""
    trees, name_of, number_of = [], *KEYS[way]
    for number, line in enumerate(text.split("\n"), 1):
        if not line.strip():
            continue
        try:
            value = json.loads(line)
            tree, count = tree_of_line(value, name_of, number_of)
        except (ValueError, KeyError, TypeError, AttributeError):
            raise WrongText(number, "this is no line of %s" % ("a derivation tree" if way == "explain" else "a written tree")) from None
        if count > len(trees):
            raise WrongText(number, "it takes %d of the trees before it, but only %d are left there" % (count, len(trees)))
        tree.line, tree.children = number, trees[len(trees) - count:]
        trees[len(trees) - count:] = [tree]
    return trees


def tree_of_line(value, name_of, number_of):
    """The tree of a line without its children, and how many these are."""
    if value == "Nothing" and name_of == "rule":
        return Tree(NOTHING), 0
    (variant, held), = value.items()
    if variant == "Leaf":
        return Tree(LEAF, terminal_text(held), value=held), 0
    if variant == "List" and name_of == "rule":
        return Tree(LIST), natural(held)
    if variant != "Node" or set(held) != {name_of, number_of, "children"}:
        raise ValueError
    return Tree(NODE, held[name_of] + "", natural(held[number_of])), natural(held["children"])


def natural(value):
    if type(value) is not int or value < 0:
        raise ValueError
    return value


def lines_of(tree, way):
    """The lines of a tree, as `lexplain` reads and prints them."""
    name_of, number_of = KEYS[way]
    found, waiting = [], [(tree, False)]
    while waiting:
        it, is_open = waiting.pop()
        if it.children and not is_open:
            waiting.append((it, True))
            waiting += [(child, False) for child in reversed(it.children)]
            continue
        value = {LEAF: lambda: {"Leaf": it.value}, NOTHING: lambda: "Nothing", LIST: lambda: {"List": len(it.children)},
                 NODE: lambda: {"Node": {name_of: it.name, number_of: it.number, "children": len(it.children)}}}[it.kind]()
        found.append(json.dumps(value, ensure_ascii=False, separators=(",", ":")) + "\n")
    return "".join(found)


# ---- a text in brackets

class Reader:
    """Reads texts in brackets. `fill` makes the tree of a leaf that is a nonterminal."""

    def __init__(self, text, grammar, way, fill):
        self.text, self.at, self.grammar, self.way, self.fill = text, 0, grammar, way, fill
        names = set(grammar.productions)
        if way == "lower":
            names = set(grammar.shown.values()) | {it for it in grammar.rule_of.values() if it}
        self.names = sorted(names, key=len, reverse=True)

    def blanks(self):
        self.at = BLANKS.match(self.text, self.at).end()

    def line(self):
        return self.text.count("\n", 0, self.at) + 1

    def trees(self):
        found = []
        self.blanks()
        while self.at < len(self.text):
            found.append(self.tree())
            self.blanks()
        return found

    def tree(self):
        line = self.line()
        it = self.text[self.at]
        if it == "]":
            raise WrongText(line, "`]` without its `[`")
        if it == "[":
            if self.way == "explain":
                raise WrongText(line, "a derivation tree has no lists: `[` stands behind a nonterminal")
            self.at += 1
            return Tree(LIST, children=self.children(line, "["), line=line)
        for name in self.names:
            if self.text.startswith(name, self.at):
                found = NUMBER.match(self.text, self.at + len(name))
                if found:
                    self.at = found.end()
                    return self.node(name, found.group(1), line)
                if re.match(r"~(?=[\s\[\]]|$)", self.text[self.at + len(name):self.at + len(name) + 2]):
                    self.at += len(name) + 1
                    return self.filled(name, line)
        return self.leaf(line)

    def children(self, line, opened):
        found = []
        self.blanks()
        while self.at < len(self.text) and self.text[self.at] != "]":
            found.append(self.tree())
            self.blanks()
        if self.at == len(self.text):
            raise WrongText(line, "`%s` without its `]`" % opened)
        self.at += 1
        return found

    def node(self, name, number, line):
        children = self.children(line, name + "[")
        return self.numbered(Tree(NODE, name, None if number is None else int(number), children, line=line))

    def numbered(self, tree):
        """A node with its rule's name and its number. Without one, the children decide."""
        found = numbers(self.grammar, self.way, tree.name, tree.children)
        if self.way == "lower":
            tree.name = next(self.grammar.rule_of[it] or it for it in self.grammar.named(tree.name))
        if tree.number is None and len(found) != 1:
            raise WrongText(tree.line, self.undecided(tree, found).replace("alternative", KEYS[self.way][1]), True)
        tree.number = found[0] if tree.number is None else tree.number
        return tree

    def undecided(self, tree, found):
        """Why the children of a node decide no alternative."""
        if found:
            which = " and ".join(map(str, found))
            return "alternatives %s of `%s` have these children: write one, as in `%s#%d[`" % (which, tree.shown, tree.shown, found[0])
        parts, there = " ".join(map(self.part, tree.children)) or "nothing", self.grammar.texts(self.way, tree.name)
        return "no alternative of `%s` has these children: `%s`; there %s %s%s" % (
            tree.shown, parts, "is" if len(there) == 1 else "are", ", ".join("`%s`" % it for it in there[:MOST_TEXTS]) or "none",
            " .." if len(there) > MOST_TEXTS else "")

    def part(self, tree):
        return {LEAF: lambda: self.grammar.plain(tree.name), LIST: lambda: "[ .. ]", NOTHING: lambda: "@"}.get(tree.kind, lambda: tree.shown)()

    def leaf(self, line):
        found = QUOTED.match(self.text, self.at) or WORD.match(self.text, self.at)
        word, self.at = found.group(), found.end()
        if word == "@" and self.way == "lower":
            return Tree(NOTHING, line=line)
        text = self.grammar.terminal_of(word)
        if text is not None:
            return Tree(LEAF, text, line=line, value=self.grammar.terminals[text])
        if word in self.names:
            return self.filled(word, line)
        if "[" == self.text[self.at:self.at + 1]:
            raise WrongText(line, "there is no %s `%s`" % (KEYS[self.way][0], word.partition("#")[0]), True)
        return Tree(LEAF, word, line=line, value=value_of(word))

    def filled(self, name, line):
        tree = self.fill(name)
        if tree is None:
            raise WrongText(line, "`%s` has no sentence, so it can't be filled" % name, True)
        tree.line = line
        return tree


def value_of(word):
    """The terminal of a word that the grammar does not have."""
    try:
        if word.startswith('r#"'):
            return {"Literal": {"Regex": word[3:-2]}}
        return {"Literal": {"Quoted": json.loads(word)}} if word.startswith('"') else {"Bare": word}
    except ValueError:
        return {"Bare": word}


def numbers(grammar, way, name, children):
    """The productions of a nonterminal, or the alternatives of a rule, that have such children."""
    if way == "explain":
        return [at for at, it in enumerate(grammar.productions[name]) if fit(grammar, it.symbols, children, lambda a, b: a == b.name)]
    return sorted({it.alternative for nonterminal in grammar.named(name) for it in grammar.productions[nonterminal]
                   if it.rule is not None and fit(grammar, it.symbols, children, lambda a, b: b.shown in (grammar.shown[a], grammar.rule_of[a]))})


def fit(grammar, symbols, children, is_node):
    """Whether children are of such symbols, looking at their roots alone."""
    def one(symbol, tree):
        kind, name = symbol
        if tree.kind == LEAF or kind == TERMINAL:
            return tree.kind == LEAF and kind == TERMINAL and tree.name == name
        if tree.kind == NODE:
            return kind == NONTERMINAL and is_node(name, tree)
        return grammar.is_list(name) if tree.kind == LIST else grammar.is_location(name)
    return len(symbols) == len(children) and all(map(one, symbols, children))


def brackets(tree, grammar, way):
    """The text in brackets of a tree."""
    if tree.is_filled:
        return tree.shown + "~"
    if tree.kind == LEAF:
        return grammar.plain(tree.name)
    if tree.kind == NOTHING:
        return "@"
    parts = " ".join(["["] + [brackets(it, grammar, way) for it in tree.children] + ["]"])
    if tree.kind == LIST:
        return parts
    is_decided = numbers(grammar, way, tree.shown, tree.children) == [tree.number]
    return tree.shown + ("" if is_decided else "#%d" % tree.number) + parts
