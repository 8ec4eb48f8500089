"""Words for the faults X1 to X7 of trees, by docs/use/FAULTS.md; a part of tools/lexplain. The program gives code and path."""
import re

from lexplain_grammar import TERMINAL
from lexplain_trees import LEAF, LIST, NODE, NOTHING, below

FAULT = re.compile(r"(?:(first|second) )?(X[1-7])(?: (/[0-9/]*|[0-9]+))?\n?")
MOST_NAMES = 8


def fault_line(said, trees, grammar, way):
    """The line for people of what the program said, or None if it is no line of a fault of a tree."""
    found = FAULT.fullmatch(said)
    if not found:
        return None
    which, code, place = found.groups()
    if code in ("X5", "X6", "X7"):
        return "%s: %s" % (said.strip(), of_two(code, place, trees, grammar))
    path = [int(it) for it in (place or "/").split("/") if it]
    tree = trees[1 if which == "second" else 0]
    words = {"X1": root, "X2": production, "X3": child, "X4": shape}[code](tree, path, grammar, way)
    return "%s, line %d: %s" % (said.strip(), below(tree, path).line, words)


def named(names):
    names = ["`%s`" % it for it in names]
    return ", ".join(names[:MOST_NAMES]) + (" .." if len(names) > MOST_NAMES else "")


def count(number, one):
    return "1 " + one if number == 1 else "%d %s" % (number, "children" if one == "child" else one + "s")


def numbered(number, one):
    return "it has none" if not number else "it has %s, from 0" % count(number, one)


def found_words(tree):
    """What a tree is."""
    return {LEAF: lambda: tree.name, NODE: lambda: "`%s`" % tree.shown,
            LIST: lambda: "a list of %d" % len(tree.children), NOTHING: lambda: "a location symbol"}[tree.kind]()


def symbol_words(symbol, grammar, way):
    kind, name = symbol
    return name if kind == TERMINAL else "`%s`" % (name if way == "explain" else grammar.shown[name])


def root(tree, _, grammar, way):
    if tree.kind != NODE:
        return "expected a node of a rule at the root, found %s" % found_words(tree)
    rule = grammar.rule_of.get(tree.name) if way == "explain" else tree.name
    why = "there is no rule `%s`" % tree.name
    if tree.name in grammar.productions or rule in grammar.rules:
        why = "no tree begins at `%s`" % tree.name
    if rule in grammar.rules and grammar.rules[rule]["args"]:
        why += ", which is a macro"
    elif rule in grammar.roots and rule != tree.name:
        why += ", which is a level of `%s`" % rule
    return "%s; trees begin at %s" % (why, named(grammar.roots))


def production(tree, path, grammar, _):
    tree = below(tree, path)
    if tree.name not in grammar.productions:
        return "there is no nonterminal `%s`" % tree.name
    return "`%s` has no production %d: %s" % (tree.name, tree.number, numbered(len(grammar.productions[tree.name]), "production"))


def child(tree, path, grammar, way):
    found = below(tree, path)
    if path:
        parent = below(tree, path[:-1])
        symbols = grammar.productions[parent.name][parent.number].symbols
        if not is_of(found, symbols[path[-1]]):
            return "expected %s, found %s" % (symbol_words(symbols[path[-1]], grammar, way), found_words(found))
    it = grammar.productions[found.name][found.number]
    return "production %d of `%s` is `%s`, with %s, but here it has %d" % (
        found.number, found.name, it.text(), count(len(it.symbols), "child"), len(found.children))


def is_of(tree, symbol):
    return (tree.kind, tree.name) == (LEAF if symbol[0] == TERMINAL else NODE, symbol[1])


# ---- a written tree, beside the symbol that it is to be of

def shape(tree, path, grammar, way):
    """Goes down to the tree that has the fault, with the nonterminal that it stands for."""
    name = tree.name
    for at in path:
        symbols = symbols_of(tree, name, grammar)
        if symbols is None or at >= len(symbols):
            return "it is not of its symbol"
        tree, symbol = tree.children[at], symbols[at]
        if symbol[0] == TERMINAL:
            return "expected %s, found %s" % (symbol[1], found_words(tree))
        name = symbol[1]
    if tree.kind == NODE and tree.name == grammar.rule_of[name]:
        return node(tree, name, grammar)
    if tree.kind == LIST and grammar.is_list(name):
        return wrong_list(tree, name, grammar)
    return "expected %s, found %s" % (symbol_words((None, name), grammar, way), found_words(tree))


def symbols_of(tree, name, grammar):
    """The symbols that the children of a written tree are of, or None."""
    if tree.kind == NODE:
        it = written_as(tree, name, grammar)
        return it and it.symbols
    if grammar.kind(name) == "empty":
        name = grammar.productions[name][1].symbols[0][1]
    symbols = grammar.productions[name][0].symbols
    return symbols * len(tree.children) if grammar.kind(name) == "one" else symbols


def written_as(tree, name, grammar):
    """The production of a node's alternative, at a nonterminal or a level below it."""
    while name:
        for it in grammar.productions[name]:
            if (it.rule, it.alternative) == (tree.name, tree.number):
                return it
        name = grammar.step(name)
    return None


def node(tree, name, grammar):
    alternatives = grammar.rules[tree.name]["alternatives"]
    if tree.number >= len(alternatives):
        return "`%s` has no alternative %d: %s" % (tree.name, tree.number, numbered(len(alternatives), "alternative"))
    it = written_as(tree, name, grammar)
    text, where = grammar.alternative(tree.name, tree.number)
    about = "alternative %d of `%s`, `%s` (%s)," % (tree.number, grammar.shown[name], text, where)
    if it is None and alternatives[tree.number]["condition"]:
        return "%s has a condition that is false here" % about
    if it is None and grammar.named(tree.name) != [name]:
        return "%s is of a higher level than may stand here" % about
    if it is None:
        return "%s is disabled" % about
    return "%s has %s, but here it has %d" % (about, count(len(it.symbols), "part"), len(tree.children))


def wrong_list(tree, name, grammar):
    kind = grammar.kind(name)
    least = {"one": "at least 1", "some": "1 or none"}.get(kind) or str(len(grammar.productions[name][0].symbols))
    return "`%s` is a list of %s, but here it is one of %d" % (name, least, len(tree.children))


# ---- two trees

def of_two(code, at, trees, grammar):
    if code == "X5":
        return "the trees are of two rules, `%s` and `%s`" % tuple(grammar.rule_of.get(it.name) or it.name for it in trees)
    if code == "X7":
        return "the trees are the same"
    words = ["`%s`" % grammar.plain(found[int(at)]) if int(at) < len(found) else "nothing" for found in (it.words() for it in trees)]
    return "word %d of the sentences differs: %s in the first, %s in the second" % ((int(at) + 1,) + tuple(words))
