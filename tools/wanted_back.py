"""The way back, written after docs/use/FORMATS.md and docs/use/FAULTS.md: the corresponding tree of a derivation tree or of a written
tree, and two readings of one yield. A part of wanted.py.

A tree is a tuple: ("leaf", terminal), ("nothing",), ("list", trees) or ("node", name, number, trees). A lowered grammar has, under
`sources`, the symbols and the origin of each production of a name, and under `roots` the names at which trees may begin. An origin is
its word, but of a written alternative the pair of rule and number, and of `X?` it is `once` or `none`, of `X*` `empty` or `filled`.
"""
import json

from wanted_shapes import has_shape, value_of


class NoTree(Exception):
    """Lines that are no tree, or no two."""


class Refusal(Exception):
    """A fault of a tree, with the child indices that lead to it."""

    def __init__(self, code, path):
        super().__init__("%s %s" % (code, "".join("/%d" % i for i in path) or "/"))


class Unshown(Exception):
    """Why two trees show no ambiguity."""


# ---- lines

def tree_of_lines(data, name, number):
    """The one tree that the lines make."""
    trees = trees_of_lines(data, name, number)
    if len(trees) != 1:
        raise NoTree
    return trees[0]


def two_trees_of_lines(data, name, number):
    trees = trees_of_lines(data, name, number)
    if len(trees) != 2:
        raise NoTree
    return trees


def trees_of_lines(data, name, number):
    """The trees that the lines make, one behind the other, each node behind its children."""
    trees = []
    try:
        lines = data.decode("utf-8").split("\n")
    except UnicodeDecodeError:
        raise NoTree from None
    for line in lines[:-1] if lines[-1] == "" else lines:
        trees.append(tree_of_line(line, trees, name, number))
    return trees


def tree_of_line(line, before, name, number):
    try:
        value = value_of(line.encode())
    except ValueError:
        raise NoTree from None
    if value == "Nothing" and name == "rule":
        return ("nothing",)
    if not isinstance(value, dict) or len(value) != 1:
        raise NoTree
    (variant, held), = value.items()
    if variant == "Leaf" and has_shape("Terminal", held):
        return ("leaf", held)
    if variant == "List" and name == "rule" and has_shape("number", held):
        return ("list", last_of(before, held))
    shapes = {name: "text", number: "number", "children": "number"}
    if variant != "Node" or not isinstance(held, dict) or set(held) != set(shapes) or not all(has_shape(s, held[n]) for n, s in shapes.items()):
        raise NoTree
    return ("node", held[name], held[number], last_of(before, held["children"]))


def last_of(trees, count):
    if count > len(trees):
        raise NoTree
    taken = trees[len(trees) - count:]
    del trees[len(trees) - count:]
    return taken


def shown_lines(shown):
    """The lines of a tree, which is given with the names of the fields of its nodes."""
    tree, name, number = shown
    text, waiting = [], [(tree, False)]
    while waiting:
        now, opened = waiting.pop()
        below = now[-1] if now[0] in ("list", "node") else []
        if below and not opened:
            waiting.append((now, True))
            waiting += [(t, False) for t in reversed(below)]
            continue
        line = {"leaf": lambda: {"Leaf": now[1]}, "nothing": lambda: "Nothing", "list": lambda: {"List": len(below)},
                "node": lambda: {"Node": {name: now[1], number: now[2], "children": len(below)}}}[now[0]]()
        text.append(json.dumps(line, ensure_ascii=False, separators=(",", ":")) + "\n")
    return "".join(text)


# ---- from a derivation tree to the written one

def explained(lowered, tree, anywhere=False):
    if tree[0] != "node" or not (lowered.sources.get(tree[1]) if anywhere else tree[1] in lowered.roots):
        raise Refusal("X1", [])
    return read_node(lowered.sources, tree, []), "rule", "alternative"


def read_node(sources, tree, path):
    if tree[0] == "leaf":
        return tree
    _, name, place, children = tree
    if place >= len(sources.get(name, [])):
        raise Refusal("X2", path)
    symbols, origin = sources[name][place]
    if len(symbols) != len(children):
        raise Refusal("X3", path)
    read = []
    for i, ((is_terminal, symbol), child) in enumerate(zip(symbols, children)):
        if child[0] != ("leaf" if is_terminal else "node") or child[1] != symbol:
            raise Refusal("X3", path + [i])
        read.append(read_node(sources, child, path + [i]))
    return made_by(origin, read)


def made_by(origin, read):
    if isinstance(origin, tuple):
        return ("node", origin[0], origin[1], read)
    if origin in ("start", "step", "filled"):
        return read[0]
    if origin in ("@L", "@R"):
        return ("nothing",)
    if origin == "more":
        return ("list", read[0][1] + [read[1]])
    return ("list", read)


# ---- from a written tree to its derivation tree

def lowered_back(lowered, tree):
    if tree[0] != "node" or tree[1] not in lowered.roots:
        raise Refusal("X1", [])
    return lower_under(lowered.sources, tree[1], tree, []), "nonterminal", "production"


def lower_at(sources, symbol, tree, path):
    is_terminal, name = symbol
    if not is_terminal:
        return lower_under(sources, name, tree, path)
    if tree != ("leaf", name):
        raise Refusal("X4", path)
    return tree


def lower_each(sources, symbols, trees, path):
    if len(symbols) != len(trees):
        raise Refusal("X4", path)
    return [lower_at(sources, s, t, path + [i]) for i, (s, t) in enumerate(zip(symbols, trees))]


def lower_under(sources, name, tree, path):
    """The tree of a nonterminal."""
    if tree[0] == "node":
        return lower_node(sources, name, tree, path)
    first, origin = sources[name][0] if sources[name] else (None, None)
    if tree[0] == "nothing" and origin in ("@L", "@R"):
        return ("node", name, 0, [])
    if tree[0] != "list":
        raise Refusal("X4", path)
    if origin in ("group", "times"):
        return ("node", name, 0, lower_each(sources, first, tree[1], path))
    if origin == "one":
        return lower_plus(sources, name, tree[1], path)
    if origin == "empty" and not tree[1]:
        return ("node", name, 0, [])
    if origin == "empty":
        return ("node", name, 1, [lower_plus(sources, sources[name][1][0][0][1], tree[1], path)])
    if origin == "once" and not tree[1]:
        return ("node", name, 1, [])
    if origin == "once":
        return ("node", name, 0, lower_each(sources, first, tree[1], path))
    raise Refusal("X4", path)


def lower_plus(sources, name, trees, path):
    """A list of `X+`, whose last element is the outermost."""
    if not trees:
        raise Refusal("X4", path)
    made = None
    for last in lower_each(sources, sources[name][0][0] * len(trees), trees, path):
        made = ("node", name, 0, [last]) if made is None else ("node", name, 1, [made, last])
    return made


def lower_node(sources, name, tree, path):
    """The production of the node's alternative, below the steps that lead to it."""
    _, rule, number, children = tree
    steps = []
    while True:
        origins = [origin for _, origin in sources[name]]
        if (rule, number) in origins:
            place = origins.index((rule, number))
            made = ("node", name, place, lower_each(sources, sources[name][place][0], children, path))
            break
        if "step" not in origins:
            raise Refusal("X4", path)
        steps.append((name, origins.index("step")))
        name = sources[name][origins.index("step")][0][0][1]
    for above, place in reversed(steps):
        made = ("node", above, place, [made])
    return made


# ---- two readings of one yield

def readings_lines(lowered, trees):
    """The lines of the written trees of two derivation trees, if these show an ambiguity, and that of the path to where they differ."""
    first, second = (read_as(lowered, tree, which) for tree, which in zip(trees, ("first", "second")))
    if first[1] != second[1]:
        raise Unshown("X5")
    here, there = leaves(first), leaves(second)
    if here != there:
        index = next((i for i, (a, b) in enumerate(zip(here, there)) if a != b), min(len(here), len(there)))
        raise Unshown("X6 %d" % index)
    if first == second:
        raise Unshown("X7")
    lines = "".join(shown_lines((tree, "rule", "alternative")) for tree in (first, second))
    return lines + json.dumps({"Differ": path_to_difference(first, second)}, separators=(",", ":")) + "\n"


def read_as(lowered, tree, which):
    try:
        return explained(lowered, tree)[0]
    except Refusal as fault:
        raise Unshown("%s %s" % (which, fault)) from None


def leaves(tree):
    """The terminals of a written tree, from left to right."""
    if tree[0] == "leaf":
        return [tree[1]]
    return [a for child in tree[-1] for a in leaves(child)] if tree[0] in ("list", "node") else []


def path_to_difference(first, second):
    """The indices of children that lead to the smallest trees with all that differs."""
    if first[0] not in ("list", "node") or first[:-1] != second[:-1] or len(first[-1]) != len(second[-1]):
        return []
    differ = [i for i, (a, b) in enumerate(zip(first[-1], second[-1])) if a != b]
    return [differ[0]] + path_to_difference(first[-1][differ[0]], second[-1][differ[0]]) if len(differ) == 1 else []
