"""What tools/lexplain shows of trees: the written tree of a derivation tree, with what the lowered grammar says of it, and lines for people."""
from lexplain_trees import LEAF, LIST, NODE, NOTHING, Tree


def written_of(grammar, tree):
    """The written tree of a derivation tree without faults. What is shown of it has the arguments of macros, and the texts of lists."""
    made = made_of(grammar, tree)
    if made is not tree:
        made.is_filled, made.line = made.is_filled or tree.is_filled, made.line or tree.line
        if made.source is None:
            made.source = tree
    return made


def made_of(grammar, tree):
    if tree.kind == LEAF:
        return tree
    it = grammar.productions[tree.name][tree.number]
    if it.rule is not None:
        children = [written_of(grammar, child) for child in tree.children]
        return Tree(NODE, it.rule, it.alternative, children, grammar.shown[tree.name])
    if it.origin in ("@L", "@R"):
        return Tree(NOTHING, shown=tree.name)
    if it.origin in ("one", "more"):
        return Tree(LIST, children=parts_of(grammar, tree), shown=tree.name)
    if it.origin in ("start", "step") or it.kind == "StarSome":
        made = written_of(grammar, tree.children[0])
        if it.kind == "StarSome" and not made.is_filled:
            made.shown = tree.name
        return made
    return Tree(LIST, children=[written_of(grammar, child) for child in tree.children], shown=tree.name)


def parts_of(grammar, tree):
    """The trees of a list, of which the last is the outermost in its derivation tree."""
    parts = []
    while grammar.productions[tree.name][tree.number].origin == "more":
        tree, last = tree.children
        parts.append(last)
    return [written_of(grammar, it) for it in [tree.children[0]] + parts[::-1]]


# ---- lines for people

def written_lines(tree, grammar):
    """A written tree with its alternatives and where they are, a line for each; terminals in a row are on one line, and left out if the
    alternative has nothing else."""
    return lines(tree, lambda it: written_head(it, grammar), grammar, lambda it: it.kind == NODE and not grammar.rules[it.name]["args"])


def written_head(it, grammar):
    if it.kind == NODE:
        return "%s = %s   (%s)" % ((it.shown,) + grammar.alternative(it.name, it.number))
    count = len(it.children)
    if it.shown and it.shown.endswith("?"):
        return "%s: %s" % (it.shown, "once" if count else "nothing")
    if it.shown and it.shown[-1] in "*+":
        return "%s: %s" % (it.shown, "nothing" if not count else "once" if count == 1 else "%d times" % count)
    return it.shown or "[ ]"


def derivation_lines(tree, grammar):
    """A derivation tree with its productions, and what each is made from."""
    return lines(tree, lambda it: "%s = %s   (%s)" % ((it.name,) + grammar.production(it.name, it.number)), grammar,
                 lambda it: True)


def lines(tree, head, grammar, says_words):
    """A tree as lines. Where the head of a tree says its words, and it has nothing else, these are left out."""
    found, waiting = [], [(tree, 0)]
    while waiting:
        it, depth = waiting.pop()
        is_word = it.kind == LEAF or it.is_filled
        word = "%s~" % it.shown if it.is_filled else grammar.plain(it.name) if it.kind == LEAF else None
        if is_word and found and found[-1][0] == depth and found[-1][2]:
            found[-1] = (depth, "%s %s" % (found[-1][1], word), True)
        elif it.kind != NOTHING:
            found.append((depth, word if is_word else head(it), is_word))
        is_said = it.is_filled or says_words(it) and all(child.kind == LEAF for child in it.children)
        waiting += [] if is_said else [(child, depth + 1) for child in reversed(it.children)]
    return ["  " * depth + text for depth, text, _ in found]
