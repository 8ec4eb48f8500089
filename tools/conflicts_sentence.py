"""Two derivation trees of a given sentence, if it has two; a part of tools/conflicts.

Of each nonterminal and each part of the sentence at most two trees are kept, which are made until none is added, as in a chart parser. For
whether the whole has two, more are not needed. A sentential form is taken as well: a nonterminal in it has its shortest tree.
"""
from conflicts_grammar import LEAF, NODE, is_nonterminal, reachable, shortest, shortest_tree

MOST = 2


class Chart:
    def __init__(self, rules, root, symbols):
        size, best = shortest(rules)
        self.rules, self.root, self.length = rules, root, len(symbols)
        self.names = [name for name in sorted(reachable(rules, [root])) if name in size]
        self.found, self.ends_of, self.leaves = {}, {}, {}
        for at, symbol in enumerate(symbols):
            tree = shortest_tree(best, symbol) if is_nonterminal(symbol) else (LEAF, symbol[1])
            self.leaves[symbol, at] = tree

    def parts(self, symbol, start):
        """Where a part that begins at `start` and is derived from the symbol may end, with its trees."""
        if (symbol, start) in self.leaves:
            yield start + 1, [self.leaves[symbol, start]]
        if is_nonterminal(symbol):
            for end in tuple(self.ends_of.get((symbol[1], start), ())):
                yield end, self.found[symbol[1], start, end]

    def rows(self, symbols, start):
        """Where what is derived from the symbols may end, with the lists of trees."""
        rows = {start: [()]}
        for symbol in symbols:
            longer = {}
            for at, lists in rows.items():
                for end, trees in self.parts(symbol, at):
                    to = longer.setdefault(end, [])
                    to += [front + (tree,) for front in lists for tree in trees][:MOST - len(to)]
            rows = longer
        return [(end, trees) for end, lists in rows.items() for trees in lists]

    def add(self, name, start, end, tree):
        """Whether the tree is one more."""
        trees = self.found.setdefault((name, start, end), [])
        self.ends_of.setdefault((name, start), {})[end] = True
        if len(trees) >= MOST or tree in trees:
            return False
        trees.append(tree)
        return True

    def trees(self):
        is_changed = True
        while is_changed and len(self.found.get((self.root, 0, self.length), ())) < MOST:
            is_changed = False
            for start in range(self.length, -1, -1):
                for name in self.names:
                    for it in self.rules[name]:
                        for end, trees in self.rows(it.right, start):
                            is_changed |= self.add(name, start, end, it.tree(trees))
        return self.found.get((self.root, 0, self.length), [])


def two_trees(rules, root, symbols):
    """Up to two derivation trees of the sentence from the nonterminal."""
    return Chart(rules, root, symbols).trees()


def is_derivation(grammar, tree):
    """Whether a tree is a derivation tree of the lowered grammar."""
    if tree[0] == LEAF:
        return True
    rows = grammar.table.get(tree[1], ())
    return tree[2] < len(rows) and len(rows[tree[2]][0]) == len(tree[3]) and all(
        child[0] == (NODE if is_nonterminal(symbol) else LEAF) and child[1] == symbol[1] and is_derivation(grammar, child)
        for symbol, child in zip(rows[tree[2]][0], tree[3]))
