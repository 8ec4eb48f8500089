"""The derivation trees of a sentence, and the shortest sentences of nonterminals; a part of tools/lexplain.

A sentence is parsed by Earley's method. Of what it finds, derivations are made one by one, as many as are asked for. If a nonterminal
derives itself over the same words, there is no end of them: then they are those in which no nonterminal is within itself so, and if that is
one alone, a short one in which some are once.
"""
from lexplain_grammar import NONTERMINAL, TERMINAL
from lexplain_trees import LEAF, NODE, Tree


MOST_LOOPS = 32


def leaf(grammar, text):
    return Tree(LEAF, text, value=grammar.terminals[text])


class Shortest:
    """The production of each nonterminal by which its shortest sentence begins."""

    def __init__(self, grammar):
        self.grammar, self.size, self.first, changed = grammar, {}, {}, True
        while changed:
            changed = False
            for name, productions in grammar.productions.items():
                for at, it in enumerate(productions):
                    sizes = [1 if kind == TERMINAL else self.size.get(symbol) for kind, symbol in it.symbols]
                    if None not in sizes and sum(sizes) < self.size.get(name, sum(sizes) + 1):
                        self.size[name], self.first[name], changed = sum(sizes), at, True

    def tree(self, name):
        """The derivation tree of the shortest sentence of a nonterminal, or None."""
        if name not in self.first:
            return None
        at = self.first[name]
        children = [leaf(self.grammar, symbol) if kind == TERMINAL else self.tree(symbol)
                    for kind, symbol in self.grammar.productions[name][at].symbols]
        return Tree(NODE, name, at, children)

    def filled(self, name):
        tree = self.tree(name)
        if tree is not None:
            tree.is_filled = True
        return tree


class Readings:
    """The readings of a sentence as a nonterminal. `words` are symbols: a nonterminal among them is a leaf, which is filled.

    `furthest` is the index of the first word that no sentence has there, or their number; `expected` are the terminals that may be
    there. `is_endless` says, when the trees were made, that there is no end of them.
    """

    def __init__(self, grammar, shortest, root, words):
        self.grammar, self.shortest, self.root, self.words, self.is_endless = grammar, shortest, root, words, False
        self.ends, self.possible = {}, {}
        self.parse()

    # ---- Earley's method: an item is a nonterminal, the index of its production, how many symbols are read, and where it begins

    def parse(self):
        chart, waiting = [dict() for _ in range(len(self.words) + 1)], [{} for _ in range(len(self.words) + 1)]
        for number in range(len(self.grammar.productions[self.root])):
            chart[0][(self.root, number, 0, 0)] = None
        for at in range(len(self.words) + 1):
            items, asked = list(chart[at]), set()
            for item in items:
                for place, more in self.steps(item, at, waiting, asked):
                    if more not in chart[place]:
                        chart[place][more] = None
                        if place == at:
                            items.append(more)
        self.furthest = max(at for at in range(len(chart)) if chart[at])
        self.expected = sorted({self.symbol(it)[1] for it in chart[self.furthest] if self.symbol(it) and self.symbol(it)[0] == TERMINAL})

    def symbol(self, item):
        """The next symbol of an item, or None at its end."""
        name, number, read, _ = item
        symbols = self.grammar.productions[name][number].symbols
        return symbols[read] if read < len(symbols) else None

    def steps(self, item, at, waiting, asked):
        """The items that follow from one, each with where it belongs."""
        name, number, read, start = item
        symbol, found = self.symbol(item), []
        if symbol is None:
            ends = self.ends.setdefault((name, start), {})
            if at not in ends:
                ends[at] = None
                found = [(at, (*it[:2], it[2] + 1, it[3])) for it in waiting[start].get(name, ())]
            return found
        if at < len(self.words) and self.words[at] == symbol:
            found.append((at + 1, (name, number, read + 1, start)))
        if symbol[0] == NONTERMINAL:
            waiting[at].setdefault(symbol[1], []).append(item)
            if symbol[1] not in asked:
                asked.add(symbol[1])
                found += [(at, (symbol[1], it, 0, at)) for it in range(len(self.grammar.productions[symbol[1]]))]
            if at in self.ends.get((symbol[1], at), ()):
                found.append((at, (name, number, read + 1, start)))
        return found

    # ---- the derivations

    def is_read(self):
        return len(self.words) in self.ends.get((self.root, 0), ())

    def trees(self, most):
        """So many derivation trees at most, each another one."""
        found = self.others([], 1, most)
        if self.is_endless and len(found) < min(2, most):
            found += sorted(self.others(found, 2, MOST_LOOPS), key=size)[:1]
        return found

    def others(self, before, depth, most):
        """Trees that are none of some, in which no nonterminal is in itself, over the same words, so many times."""
        self.depth, found = depth, []
        for tree in self.of((NONTERMINAL, self.root), 0, len(self.words), {}):
            if not any(is_same(tree, it) for it in before + found):
                found.append(tree)
            if len(found) == most:
                break
        return found

    def stops(self, symbol, at):
        """Where a tree of a symbol may end that begins there."""
        kind, name = symbol
        ends = list(self.ends.get((name, at), ())) if kind == NONTERMINAL else []
        return ends + [at + 1] if at < len(self.words) and self.words[at] == symbol and at + 1 not in ends else ends

    def can(self, name, number, read, at, end):
        """Whether the rest of a production can be read up to an end."""
        key = (name, number, read, at, end)
        if key not in self.possible:
            symbols = self.grammar.productions[name][number].symbols
            self.possible[key] = at == end if read == len(symbols) else any(
                stop <= end and self.can(name, number, read + 1, stop, end) for stop in self.stops(symbols[read], at))
        return self.possible[key]

    def of(self, symbol, at, end, within):
        """The trees of a symbol from one word to another. `within` counts the nonterminals that hold it over the same words."""
        kind, name = symbol
        if at + 1 == end and self.words[at] == symbol:
            yield leaf(self.grammar, name) if kind == TERMINAL else self.shortest.filled(name)
        if kind == TERMINAL or end not in self.ends.get((name, at), ()):
            return
        if within.get((name, at, end), 0) >= self.depth:
            self.is_endless = True
            return
        within = {key: count for key, count in within.items() if key[1:] == (at, end)}
        within[(name, at, end)] = within.get((name, at, end), 0) + 1
        for number in range(len(self.grammar.productions[name])):
            for children in self.rest(name, number, 0, at, end, within):
                yield Tree(NODE, name, number, children)

    def rest(self, name, number, read, at, end, within):
        symbols = self.grammar.productions[name][number].symbols
        if read == len(symbols):
            if at == end:
                yield ()
            return
        for stop in self.stops(symbols[read], at):
            if stop <= end and self.can(name, number, read + 1, stop, end):
                for child in self.of(symbols[read], at, stop, within):
                    for others in self.rest(name, number, read + 1, stop, end, within):
                        yield (child,) + others


def size(tree):
    """How many nodes and leaves a tree has."""
    found, waiting = 0, [tree]
    while waiting:
        found += 1
        waiting += waiting.pop().children
    return found


def is_same(first, second):
    waiting = [(first, second)]
    while waiting:
        a, b = waiting.pop()
        if (a.kind, a.name, a.number, len(a.children)) != (b.kind, b.name, b.number, len(b.children)):
            return False
        waiting += zip(a.children, b.children)
    return True
