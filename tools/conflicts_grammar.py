"""The lowered grammar as tools/conflicts searches it: its productions as they are, or with the nonterminals inlined that LALRPOP inlines.

A symbol is ("t", TERMINAL) or ("n", NAME); a terminal is its JSON text. A derivation tree is ("leaf", TERMINAL) or ("node", NAME, INDEX,
TREES), by the index of a production. Each production of the inlined grammar keeps the derivation tree of the lowered grammar that it
stands for, in which ("hole", N) is the tree of its symbol N. Therefore a tree of the inlined grammar is one of the lowered grammar at once.
"""
import functools
import heapq
import itertools
import json

from wanted import is_active

MOST_OF_ONE = 20000
LEAF, NODE, HOLE = "leaf", "node", "hole"


class TooMany(Exception):
    """The inlined grammar has too many productions of one nonterminal, which is named."""


def is_nonterminal(symbol):
    return symbol[0] == "n"


def key_of(terminal):
    """A terminal as the text that stands for it in symbols and leaves."""
    return json.dumps(terminal, sort_keys=True, ensure_ascii=False)


class Production:
    def __init__(self, left, right, shape):
        self.left, self.right, self.shape = left, tuple(right), shape

    def tree(self, trees):
        """The derivation tree whose children, by the symbols of the production, are `trees`."""
        return filled(self.shape, trees)


def filled(shape, trees):
    if shape[0] == HOLE:
        return trees[shape[1]]
    return shape if shape[0] == LEAF else (NODE, shape[1], shape[2], tuple(filled(it, trees) for it in shape[3]))


def moved(shape, by):
    """A shape whose holes have numbers that are greater by so many."""
    if shape[0] == HOLE:
        return HOLE, shape[1] + by
    return shape if shape[0] == LEAF else (NODE, shape[1], shape[2], tuple(moved(it, by) for it in shape[3]))


# ---- shortest sentences

def shortest(rules):
    """Of each nonterminal that derives a sentence, the length of its shortest one and the production that begins it."""
    size, best, changed = {}, {}, True
    while changed:
        changed = False
        for name, productions in rules.items():
            for it in productions:
                total = length_of(it.right, size)
                if total is not None and (name not in size or total < size[name]):
                    size[name], best[name], changed = total, it, True
    return size, best


def length_of(symbols, size):
    """The length of the shortest sentence of some symbols, None if they derive none."""
    found = [size.get(name) if kind == "n" else 1 for kind, name in symbols]
    return None if None in found else sum(found)


def shortest_tree(best, symbol):
    kind, name = symbol
    return best[name].tree([shortest_tree(best, it) for it in best[name].right]) if kind == "n" else (LEAF, name)


def productive(rules):
    """The rules without the productions that derive no sentence."""
    size, _ = shortest(rules)
    return {name: [it for it in of if length_of(it.right, size) is not None] for name, of in rules.items() if name in size}


def reachable(rules, names):
    seen, worklist = set(), list(names)
    while worklist:
        name = worklist.pop()
        if name in rules and name not in seen:
            seen.add(name)
            worklist += [symbol[1] for it in rules[name] for symbol in it.right if is_nonterminal(symbol)]
    return seen


def sentence_of(tree):
    """The terminals of a derivation tree, its yield."""
    return [tree[1]] if tree[0] == LEAF else [it for child in tree[3] for it in sentence_of(child)]


class Grammar:
    """The lowered grammar that `lexplain grammar --origins` printed of a tree in JSON, with these features."""

    def __init__(self, whole, tree, features):
        grammar, origins = whole["grammar"], whole["origins"]
        added = {start for _, start in grammar["start_nonterminals"]}
        data = {name: it for name, it in grammar["nonterminals"] if name not in added}
        self.whole, self.starts = grammar, [name for name, _ in grammar["start_nonterminals"] if name in data]
        self.table = {name: [(tuple(map(symbol_of, it["symbols"])), origins[it["action"]]) for it in of["productions"]]
                      for name, of in data.items()}
        self.inline = {name for name, of in data.items() if any(it["id"] == "inline" for it in of["attributes"])}
        self.written = {rule["name"]: rule for item in tree["items"] for kind, rule in item.items()
                        if kind == "Nonterminal" and is_active(rule["attributes"], set(features))}
        self.roots = {name for name, rule in self.written.items() if not rule["args"] and name in self.table}
        self.rules = {name: [Production(name, symbols, (NODE, name, index, tuple((HOLE, at) for at in range(len(symbols)))))
                             for index, (symbols, _) in enumerate(rows)] for name, rows in self.table.items()}

    @functools.cached_property
    def shortest(self):
        return shortest(self.rules)

    def inlined(self):
        """The rules after inlining. A nonterminal that leads back to itself by inlining stays."""
        names, done = self.inline - self.inlined_into_themselves(), {}

        def productions(name):
            if name not in done:
                done[name] = [long for it in self.rules[name] for long in written_out(it)]
            return done[name]

        def written_out(short):
            found = [((), ())]
            for symbol in short.right:
                if is_nonterminal(symbol) and symbol[1] in names:
                    found = [(right + it.right, parts + (moved(it.shape, len(right)),))
                             for right, parts in found for it in productions(symbol[1])]
                else:
                    found = [(right + (symbol,), parts + ((HOLE, len(right)),)) for right, parts in found]
                if len(found) > MOST_OF_ONE:
                    raise TooMany(short.left)
            return [Production(short.left, right, filled(short.shape, parts)) for right, parts in found]

        return {name: [long for it in self.rules[name] for long in written_out(it)] for name in self.rules if name not in names}

    def inlined_into_themselves(self):
        uses = {name: {symbol[1] for it in self.rules[name] for symbol in it.right if symbol[1] in self.inline and is_nonterminal(symbol)}
                for name in self.inline}
        found = set()
        for name in uses:
            seen, worklist = set(), list(uses[name])
            while worklist:
                it = worklist.pop()
                if it not in seen:
                    seen.add(it)
                    worklist += uses[it]
            found |= {name} & seen
        return found

    def raised(self, name, pair, starts):
        """A pair of trees of a nonterminal, put into the shortest derivation from a written rule; None if no rule leads there."""
        size, best = self.shortest
        uses, count = self.uses_below(starts), itertools.count()
        heap, seen = [(0, 0, name, pair)], set()
        while heap:
            cost, _, now, trees = heapq.heappop(heap)
            if now in self.roots:
                return trees
            if now in seen:
                continue
            seen.add(now)
            for it, at in uses.get(now, ()):
                others = [symbol for index, symbol in enumerate(it.right) if index != at]
                length = length_of(others, size)
                if length is None or it.left in seen:
                    continue
                around = [None if index == at else shortest_tree(best, symbol) for index, symbol in enumerate(it.right)]
                made = tuple(it.tree(around[:at] + [tree] + around[at + 1:]) for tree in trees)
                heapq.heappush(heap, (cost + length + 0.01, next(count), it.left, made))
        return None

    def uses_below(self, starts):
        """Of each nonterminal the productions that have it, and where, as far as the start nonterminals lead."""
        uses = {}
        for name in sorted(reachable(self.rules, starts)):
            for it in self.rules[name]:
                for at, symbol in enumerate(it.right):
                    if is_nonterminal(symbol):
                        uses.setdefault(symbol[1], []).append((it, at))
        return uses

    def terminals(self):
        """The terminals of all productions, in the order of their texts."""
        return sorted({name for rows in self.table.values() for symbols, _ in rows for kind, name in symbols if kind == "t"})


def symbol_of(symbol):
    (kind, held), = symbol.items()
    return ("n", held) if kind == "Nonterminal" else ("t", key_of(held))
