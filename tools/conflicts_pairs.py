"""The own search of tools/conflicts: two leftmost derivations of one nonterminal, step by step, those of the shortest sentence first.

A state has what both derivations have still to derive. As long as they are the same there is one of them. They part at a nonterminal that
both expand by different productions, or that one of them keeps as a leaf. If two derivations that have parted end with the same leaves,
nonterminals among them, they mostly are two derivation trees of one sentence: each leaf has its shortest tree, the same in both.

Where a symbol is ("f", NAME), that derivation has decided that its next symbol is a leaf. A state is (cost, parted, first, second): the
length of what is derived, and whether the derivations are the SAME, have parted SURELY, or MAYBE. They have parted maybe if a leaf that may
be empty stands in one of them alone, since the leaf may be filled with what stands in the other.

Before that come productions of one nonterminal that are alike after inlining, as of `X? X?` or of two lists in a row.
"""
import heapq
import time

from conflicts_grammar import is_nonterminal, length_of, reachable, shortest, shortest_tree

LONGEST, MOST_STATES, MOST_SYMBOLS = 40, 3000000, 16
SAME, MAYBE, SURELY = 0, 1, 2
STEPS_BETWEEN = 255


def leaf(name):
    return "f", name


class Search:
    """The search in the inlined rules, as far as the start nonterminals lead. All productions must derive some sentence."""

    def __init__(self, rules, starts, is_all=False, longest=LONGEST):
        names = reachable(rules, starts)
        self.rules, self.longest = {name: rules[name] for name in rules if name in names}, longest
        self.size, self.best = shortest(self.rules)
        self.first_of, self.known, self.rests = self.left_corners(), {}, {}
        self.heap, self.seen, self.count = [], {}, 0
        self.is_all, self.shown = is_all, set()

    def left_corners(self):
        """Of each nonterminal the symbols that may be the first of what is derived from it, itself among them."""
        direct = {}
        for name, productions in self.rules.items():
            direct[name] = set()
            for it in productions:
                for symbol in it.right:
                    direct[name].add(symbol)
                    if not self.may_be_empty(symbol):
                        break
        found = {}
        for name in self.rules:
            seen, worklist = set(), [("n", name)]
            while worklist:
                symbol = worklist.pop()
                if symbol not in seen:
                    seen.add(symbol)
                    worklist += direct[symbol[1]] if is_nonterminal(symbol) else ()
            found[name] = seen
        return found

    def may_be_empty(self, symbol):
        return is_nonterminal(symbol) and self.size[symbol[1]] == 0

    def firsts(self, symbols):
        """The symbols that may be the first of what is derived from these; None is among them if all may be empty."""
        if symbols not in self.known:
            self.known[symbols] = frozenset(self.firsts_of(symbols))
        return self.known[symbols]

    def firsts_of(self, symbols):
        found = set()
        for symbol in symbols:
            if not is_nonterminal(symbol):
                return found | {("n", symbol[1]) if symbol[0] == "f" else symbol}
            found |= self.first_of[symbol[1]]
            if not self.may_be_empty(symbol):
                return found
        return found | {None}

    def starts_alike(self, first, second):
        return not self.firsts(first).isdisjoint(self.firsts(second))

    def cost_of(self, symbol):
        return 1 if symbol[0] == "t" else self.size[symbol[1]]

    def rest(self, symbols):
        """The length of the shortest sentence of some symbols."""
        found = self.rests.get(symbols)
        if found is None:
            found = self.rests[symbols] = sum(map(self.cost_of, symbols))
        return found

    # ---- the order of states

    def push(self, state, root, moves):
        """`root` is the nonterminal, with where the derivations have parted."""
        cost, parted, first, second = state
        if len(first) <= MOST_SYMBOLS and len(second) <= MOST_SYMBOLS:
            least = cost + max(self.rest(first), self.rest(second) if parted else 0)
            if least <= self.longest:
                self.count += 1
                heapq.heappush(self.heap, (least, len(first) + len(second), self.count, state, root, moves))

    def begin(self):
        for name, productions in self.rules.items():
            for at, it in enumerate(productions):
                self.push((0, SAME, it.right, it.right), (name, None), ((at, at), None))
                for other in range(at + 1, len(productions)):
                    if self.starts_alike(it.right, productions[other].right):
                        self.push((0, SURELY, it.right, productions[other].right), (name, (name, at, other)), ((at, other), None))

    def is_repeated(self, state, root):
        """Whether a state was reached before at no greater cost. If the derivations have surely parted, the root is of no matter."""
        cost, parted, first, second = state
        key = (first, second, root[1] if self.is_all else None) if parted == SURELY else (parted, first, second, root)
        if self.seen.get(key, cost + 1) <= cost:
            return True
        self.seen[key] = cost
        return False

    def alike(self):
        """The pairs of trees that begin with productions of one nonterminal that are alike, the shortest sentence first."""
        found = []
        for name, productions in self.rules.items():
            before = {}
            for it in productions:
                found += [(self.rest(it.right), name, before[it.right], it)] if it.right in before else []
                before.setdefault(it.right, it)
        for _, name, *both in sorted(found, key=lambda row: row[0]):
            trees = [shortest_tree(self.best, symbol) for symbol in both[0].right]
            yield name, tuple(it.tree(trees) for it in both)

    def pairs(self, seconds, is_over=lambda: False):
        """The pairs that are found in that time, or until it is over: (nonterminal, (tree, tree)), the shortest sentence first."""
        end, steps = time.monotonic() + seconds, 0
        yield from self.alike()
        self.begin()
        while self.heap and len(self.seen) <= MOST_STATES:
            steps += 1
            if steps & STEPS_BETWEEN == 0 and (time.monotonic() > end or is_over()):
                return
            _, _, _, state, root, moves = heapq.heappop(self.heap)
            if self.is_repeated(state, root):
                continue
            _, parted, first, second = state
            if parted and not first and not second:
                pair = self.trees(root[0], moves)
                if pair[0] != pair[1] and root not in self.shown:
                    self.shown.add(root)
                    yield root[0], pair
                continue
            for after, move in self.steps(*state):
                is_parting = parted == SAME and after[1] != SAME
                self.push(after, (root[0], (first[0][1], *move)) if is_parting else root, (move, moves))

    # ---- the steps; a move is what both derivations do: a production's index, None for a leaf, () for nothing

    def steps(self, cost, parted, first, second):
        if parted == SAME:
            return self.steps_of_same(cost, first) if first else ()
        if not first or not second:
            return self.steps_to_nothing(cost, parted, first, second)
        return self.steps_of_two(cost, parted, first, second)

    def steps_of_same(self, cost, symbols):
        symbol, rest = symbols[0], symbols[1:]
        yield (cost + self.cost_of(symbol), SAME, rest, rest), (None, None)
        if not is_nonterminal(symbol):
            return
        after = [it.right + rest for it in self.rules[symbol[1]]]
        for at, long in enumerate(after):
            yield (cost, SAME, long, long), (at, at)
            if symbol in self.firsts(long):
                yield (cost, MAYBE if self.may_be_empty(symbol) else SURELY, long, (leaf(symbol[1]),) + rest), (at, ())
            for other in range(at + 1, len(after)):
                if self.starts_alike(long, after[other]):
                    yield (cost, SURELY, long, after[other]), (at, other)

    def steps_to_nothing(self, cost, parted, first, second):
        """The steps if one derivation has ended: all that is left of the other must become nothing."""
        symbols = first or second
        if self.may_be_empty(symbols[0]):
            for at, it in enumerate(self.rules[symbols[0][1]]):
                if length_of(it.right, self.size) == 0:
                    after = it.right + symbols[1:]
                    yield ((cost, parted, after, second), (at, ())) if first else ((cost, parted, first, after), ((), at))

    def steps_of_two(self, cost, parted, first, second):
        one, other = first[0], second[0]
        if not is_nonterminal(one) and not is_nonterminal(other):
            if one == other:
                yield (cost + self.cost_of(one), parted, first[1:], second[1:]), (None, None)
        elif is_nonterminal(one):
            wanted = self.firsts(second)
            if one in wanted:
                yield (cost, parted, (leaf(one[1]),) + first[1:], second), ((), ())
            for at, it in enumerate(self.rules[one[1]]):
                after = it.right + first[1:]
                if not self.firsts(after).isdisjoint(wanted):
                    yield (cost, parted, after, second), (at, ())
        else:
            wanted = ("n", one[1]) if one[0] == "f" else one
            if wanted == other:
                yield (cost, parted, first, (leaf(other[1]),) + second[1:]), ((), ())
            for at, it in enumerate(self.rules[other[1]]):
                after = it.right + second[1:]
                if wanted in self.firsts(after):
                    yield (cost, parted, first, after), ((), at)

    # ---- the trees of the moves

    def trees(self, root, moves):
        numbers = []
        while moves is not None:
            move, moves = moves
            numbers.append(move)
        return tuple(self.tree(root, [move[side] for move in reversed(numbers) if move[side] != ()]) for side in (0, 1))

    def tree(self, root, numbers):
        """The tree of a leftmost derivation: of each symbol the index of its production, or None if it is a leaf."""
        left = iter(numbers)

        def below(symbol):
            number = next(left)
            if number is None or not is_nonterminal(symbol):
                return shortest_tree(self.best, symbol)
            it = self.rules[symbol[1]][number]
            return it.tree([below(child) for child in it.right])

        return below(("n", root))
