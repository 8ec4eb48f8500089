"""What tools/conflicts prints of an ambiguity: a sentence, its two readings in brackets, and the alternatives of each reading with line and
column. Of what both readings have at one position only the terminals are shown. A chain of rules with one part is on one line."""
from conflicts_hints import helps
from conflicts_readings import LEAF, LIST, NODE, NOTHING, below, lines_of_written, parts_with_starts, sentence
from shown import BOLD, GREEN, RED, painted

MOST_OF_CHAIN, LONGEST = 3, 100
TIMES = {0: "nothing", 1: "once"}


def numbered(part):
    """The parts of a part, each with its index if it is a list and another one of its kind is beside it, else with None."""
    lists = [it.name for it in part.parts if it.kind == LIST]
    return [(number if it.kind == LIST and lists.count(it.name) > 1 else None, it) for number, it in enumerate(part.parts)]


def positions(part, start=0, index=None):
    """Each part with where its sentence begins, and with its index."""
    yield start, index, part
    for number, child in numbered(part):
        yield from positions(child, start, number)
        start += len(sentence(child))


def cut(text):
    """A text without its middle, if it is long."""
    return text if len(text) <= LONGEST else text[:LONGEST * 2 // 3] + " .. " + text[-LONGEST // 3:]


class Ambiguity:
    """A checked pair: two readings of one sentence, and where they differ."""

    def __init__(self, places, tokens, readings, path, found_by):
        self.places, self.tokens, self.readings, self.path, self.found_by = places, tokens, readings, path, found_by
        self.parts = [below(it, path) for it in readings]
        self.holder = below(readings[0], path[:-1]) if path else None
        self.common = self.common_parts()

    def common_parts(self):
        """The parts that both readings have at one position."""
        first, second = (set(positions(part)) for part in self.parts)
        return first & second - {(0, None, part) for part in self.parts}

    def is_common(self, start, index, part):
        return (start, index, part) in self.common

    def key(self):
        """Ambiguities of one key are shown once: the alternatives at the difference, and what it is a part of."""
        heads = sorted(map(repr, map(self.places.head, self.parts)))
        return tuple(heads) + ((self.places.head(self.holder), self.path[-1]) if self.holder else ())

    def words(self, terminals):
        return " ".join(self.tokens.shown[it] for it in terminals)

    # ---- one reading

    def chain(self, part, start):
        """The rules from a node down to the first that has other parts beside a rule."""
        found = [part]
        while True:
            inner = [it for it in found[-1].parts if it.kind != NOTHING]
            if len(inner) != 1 or inner[0].kind != NODE or self.is_common(start, None, inner[0]):
                return found
            found.append(inner[0])

    def brackets(self, part, start=0, index=None):
        """The terminals of a part, with a name and brackets around each part that the other reading does not have there."""
        if part.kind == LEAF:
            return self.tokens.shown[part.what]
        chain = self.chain(part, start) if part.kind == NODE else [part]
        texts, at = [], start
        for number, child in numbered(chain[-1]):
            texts.append(self.brackets(child, at, number))
            at += len(sentence(child))
        text = " ".join(filter(None, texts))
        if self.is_common(start, index, part) or part.kind == NOTHING:
            return text
        if part.kind == LIST and not text:
            return ""
        names = [it.what for it in chain if it.kind == NODE]
        names = names[:1] + [".."] + names[-1:] if len(names) > MOST_OF_CHAIN else names
        return ">".join(names) + ("[ %s ]" % text if text else "[ ]")

    def lines(self, part, start=0, index=None, depth=0, found=None):
        """A reading as indented lines: [depth, text, whether it has terminals alone]. Terminals in a row are on one line."""
        found = [] if found is None else found
        if self.is_common(start, index, part) or part.kind in (LEAF, NOTHING):
            self.add_words(part, depth, found)
            return found
        chain = self.chain(part, start) if part.kind == NODE else [part]
        found.append([depth, self.head(chain), False])
        for number, child in numbered(chain[-1]):
            self.lines(child, start, number, depth + 1, found)
            start += len(sentence(child))
        return found

    def add_words(self, part, depth, found):
        words = self.words(sentence(part))
        if words and found and found[-1][0] == depth and found[-1][2]:
            found[-1][1] += " " + words
        elif words:
            found.append([depth, words, True])
        elif part.kind == NODE:
            found.append([depth, "%s: nothing" % self.places.rule(part), False])

    def head(self, chain):
        """The line of a node, with those that lead to it, or of a list."""
        last = chain[-1]
        if last.kind == LIST:
            count = len(last.parts)
            name = self.places.name(last.name)
            if self.places.is_repeat(last) or not count:
                return "%s: %s" % (name, TIMES.get(count, "%d times" % count))
            return name
        text, at = self.places.shown(last)
        before = ("%s (%s) > " % (self.places.rule(it), self.places.shown(it)[1]) for it in chain[:-1])
        return "%s%s   (%s)" % ("".join(before), cut(text), at)

    # ---- for people

    def text(self, name, is_coloured):
        rule = self.readings[0].what
        title = "`%s` is ambiguous: this sentence has two readings" % rule
        out = ["%s %s" % (painted(name + ":", BOLD, is_coloured), title), "", "    " + (self.words(self.sentence()) or "(the empty sentence)")]
        example = [self.tokens.example(it) or self.tokens.shown[it] for it in self.sentence()]
        if example != [self.tokens.shown[it] for it in self.sentence()]:
            out += ["    for example: " + " ".join(example)]
        if self.path:
            out += ["", self.where()]
        for number, part in enumerate(self.parts, 1):
            out += ["", "  %s  %s" % (painted(str(number), RED, is_coloured), self.brackets(part) or "(nothing)")]
            out += ["       " + "  " * depth + words for depth, words, _ in self.lines(part)]
        for line in helps(*self.parts, self.places, self.tokens.shown):
            kind, _, words = line.partition(":")
            out += ["", "%s:%s" % (painted(kind, GREEN, is_coloured), words)]
        path = "/" + "/".join(map(str, self.path))
        return "\n".join(out + ["", "(found by %s; checked by lexplain: two trees of `%s` with one sentence, which differ at %s)" % (
            self.found_by, rule, path)])

    def sentence(self):
        return sentence(self.readings[0])

    def where(self):
        """Which part of the sentence is read in two ways, and what it is a part of."""
        words = self.words(sentence(self.parts[0]))
        words = "They differ in " + ("`%s`" % words if words else "a part without terminals")
        if self.holder.kind == LIST:
            return "%s, part %d of `%s`." % (words, self.path[-1] + 1, self.places.name(self.holder.name))
        symbol, at = self.places.symbol_at(self.holder, self.path[-1])
        return "%s, which is the `%s` (%s) of `%s`." % (words, symbol, at, cut(self.places.shown(self.holder)[0]))

    # ---- for programs

    def record(self):
        places = [[self.places.record(it) for _, it in found if it.kind == NODE] for found in map(self.walk, self.parts)]
        terminals = [self.tokens.terminals[it] for it in self.sentence()]
        return {"rule": self.readings[0].what, "sentence": self.words(self.sentence()), "terminals": terminals,
                "readings": [lines_of_written(it, []) for it in self.readings], "brackets": [self.brackets(it) for it in self.parts],
                "path": self.path, "places": places, "help": helps(*self.parts, self.places, self.tokens.shown), "found_by": self.found_by}

    @staticmethod
    def walk(part):
        found = []
        parts_with_starts(part, 0, found)
        return found
