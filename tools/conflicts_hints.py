"""What may help against an ambiguity, guessed from the shape of the smallest difference of two readings; a part of tools/conflicts."""
from conflicts_readings import LIST, NODE, NOTHING, parts_with_starts, sentence

LEVELS = 'state which binds stronger, and the associativity of equal ones: `#[precedence(level="..")] #[assoc(side="..")]`'


def helps(first, second, places, shown):
    """The lines of help; `shown` has the texts of terminals."""
    found = next(filter(None, (hint(first, second, places, shown) for hint in HINTS)), None)
    lines = ["help: " + found] if found else []
    if any(it == '"Error"' for it in sentence(first)):
        lines.append("note: `!` is the error terminal: these are readings of a sentence with an error in it")
    return lines


def of_lists(first, second, places, shown):
    if first.kind == second.kind == LIST:
        name = places.name(first.name)
        if any(not sentence(part) for it in (first, second) for part in it.parts) and places.is_repeat(first):
            return "a part of the list `%s` may be empty, so there may be any number of it: let each part have a terminal" % name
        if places.is_repeat(first):
            return ("in the list `%s` the end of a part and the beginning of the next can be read in two ways: end or separate the parts "
                    "by a terminal" % name)
        if places.is_option(first) and any(not sentence(part) for it in (first, second) for part in it.parts):
            return "what is optional in `%s` may be empty itself, so it can be missing in two ways: let it have a terminal" % name
        return "the parts of `%s` can divide these terminals in two ways" % name
    return None


def of_circle(first, second, places, shown):
    for it in (first, second):
        found = []
        parts_with_starts(it, 0, found)
        for at, (start, part) in enumerate(found):
            if part.kind == NODE and any(below.kind == NODE and below.what == part.what and below_start == start
                                         and len(sentence(below)) == len(sentence(part)) for below_start, below in inside(found, at)
                                         if below.name == part.name):
                return "`%s` derives itself without a further terminal: drop an alternative of that circle" % places.rule(part)
    return None


def inside(found, at):
    """The parts inside of the part at an index, of those in the order of the walk."""
    count, left = 0, [found[at][1]]
    while left:
        part = left.pop()
        count += 1
        left += part.parts
    return found[at + 1:at + count]


def of_tail(first, second, places, shown):
    """`else`: the tail of an alternative, behind the rule itself, may belong to an inner or an outer one."""
    if first.kind != NODE or second.kind != NODE or first.what != second.what or places.text is None:
        return None
    for short, long in ((first, second), (second, first)):
        symbols, longer = places.symbols(short), places.symbols(long)
        tail = [it for part in long.parts[len(symbols):] for it in sentence(part)] if longer[:len(symbols)] == symbols else []
        ends_itself = short.parts and short.parts[-1].kind == NODE and short.number != long.number
        if short.number == long.number and short.parts and short.parts[-1].kind == LIST and not sentence(short.parts[-1]):
            tail, ends_itself = sentence(long.parts[-1]), any(it.kind == NODE and it.what == short.what for it in short.parts[-2:-1])
        if tail and ends_itself and sentence(short)[-len(tail):] == tail:
            return ("`%s` may belong to the inner or to the outer one: before it allow a rule of its own only, of which no alternative "
                    "that lacks it comes last" % shown[tail[0]])
    return None


def of_rules(first, second, places, shown):
    """A part that is one rule in one reading, and another one in the other."""
    spans = [spans_of(it) for it in (first, second)]
    both = [span for span in spans[0] if span in spans[1] and span[1] and
            spans[0][span][0] not in spans[1][span] and spans[1][span][0] not in spans[0][span]]
    if not both:
        return None
    start, length = min(both, key=lambda it: (it[1], it[0]))
    words = " ".join(shown[it] for it in sentence(first)[start:start + length])
    return "`%s` is `%s` in 1, but `%s` in 2" % (words, spans[0][start, length][0], spans[1][start, length][0])


def spans_of(part):
    """Of each span of the sentence, as start and length, the rules that it is, the outermost first."""
    found, spans = [], {}
    parts_with_starts(part, 0, found)
    for start, it in found:
        if it.kind == NODE:
            spans.setdefault((start, len(sentence(it))), []).append(it.what)
    return spans


def of_levels(first, second, places, shown):
    if first.kind != NODE or second.kind != NODE or first.what != second.what:
        return None
    if not all(is_recursive(it) for it in (first, second)) or not any(is_binary(it) for it in (first, second)):
        return None
    attributes = [{it["id"] for it in of["attributes"]} for of in places.grammar.written[first.what]["alternatives"]]
    if not any("precedence" in it for it in attributes):
        return LEVELS
    if first.number == second.number:
        return 'this level has no associativity: `#[assoc(side="left")]` reads its operators from the left, `"right"` from the right'
    return "the levels do not decide between these two alternatives: one of them has a weaker part where a stronger one is wanted"


def is_recursive(part):
    return any(it.kind == NODE and it.what == part.what for it in part.parts)


def is_binary(part):
    ends = [it for it in part.parts if it.kind != NOTHING]
    return len(ends) > 1 and all(it.kind == NODE and it.what == part.what for it in (ends[0], ends[-1]))


def of_alternatives(first, second, places, shown):
    if first.kind != NODE or second.kind != NODE or first.what != second.what:
        return None
    lists = [places.name(it.name) for it in first.parts if it.kind == LIST]
    if first.number == second.number and len(set(lists)) < len(lists):
        return "`%s` is there twice, and either one can have these terminals" % next(it for it in lists if lists.count(it) > 1)
    if first.number == second.number:
        return "both use this alternative, and divide the terminals between its parts in two ways"
    return "two alternatives of `%s` have this sentence in common" % places.rule(first)


HINTS = (of_lists, of_circle, of_tail, of_rules, of_levels, of_alternatives)
