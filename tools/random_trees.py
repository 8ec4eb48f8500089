"""Random trees: derivation trees of a grammar that wanted.py lowered, in the form of wanted_back.py, such a tree with one node spoilt, and
the lines of one, damaged; and trees of grammars as no parser makes them.
"""
import copy
import re

DEEP = 5
PIECES = (b"", b"\xff", b"\xc3", b" ", b'"', b"}", b"\\", b"0", b"\n")
NUMBER = re.compile(rb"(?<=:)[0-9]+")
NUMBERS = (b"0", b"1", b"2", b"9", b"01", b"-1", b"-0", b"1.0", b"1e0", b"18446744073709551615", b"18446744073709551616", b'"1"', b"null")
# Fields that have the same type in every object, and symbols that are put at odd positions.
FIELDS = ("kind", "type_decl", "action", "condition", "visibility", "attributes", "alternatives", "symbols", "span", "type_parameters",
          "where_clauses", "parameters", "from", "to")
KINDS = ({"Terminal": {"Bare": "zz"}}, {"Terminal": {"Literal": {"Quoted": "a"}}}, {"Terminal": {"Literal": {"Regex": "["}}},
         {"Terminal": "Error"}, {"Nonterminal": "M0"}, {"Nonterminal": "N0"}, {"Nonterminal": "nope"}, {"AmbiguousId": "T0"}, "Lookahead",
         "Lookbehind", "Error")


def heights(sources):
    """How high the least tree of each nonterminal is that has one."""
    found = {}
    while True:
        more = {name: 1 + min(high) for name, productions in sources.items() if name not in found
                for high in [[height for symbols, _ in productions for height in least(found, symbols)]] if high}
        if not more:
            return found
        found.update(more)


def least(found, symbols):
    """How high a production's least tree is without its root, if it has one: a list of one or none."""
    below = [0 if is_terminal else found.get(symbol) for is_terminal, symbol in symbols]
    return [] if None in below else [max(below, default=0)]


def grown(sources, found, chance, name, left):
    """A tree of a nonterminal, and of least ones below a depth."""
    ready = [(least(found, symbols)[0], place) for place, (symbols, _) in enumerate(sources[name]) if least(found, symbols)]
    _, place = chance.choice(ready) if left > 0 else min(ready)
    children = [("leaf", symbol) if is_terminal else grown(sources, found, chance, symbol, left - 1)
                for is_terminal, symbol in sources[name][place][0]]
    return ("node", name, place, children)


def derivation(lowered, chance, root=None):
    """A derivation tree of a written rule, or of that one, or none where no rule has one."""
    found = heights(lowered.sources)
    names = sorted(name for name in lowered.roots if name in found and root in (None, name))
    return grown(lowered.sources, found, chance, chance.choice(names), DEEP) if names else None


def spoilt(tree, chance):
    """The tree with one of its parts changed: another number or name, a child less, another terminal, or one part in the place of another."""
    if tree[0] in ("node", "list") and tree[-1] and chance.random() < 0.7:
        children = list(tree[-1])
        place = chance.randrange(len(children))
        children[place] = spoilt(children[place], chance)
        return (*tree[:-1], children)
    changes = [("leaf", {"Literal": {"Quoted": "none"}}), ("node", "S", 0, [])]
    if tree[0] == "node":
        _, name, number, children = tree
        changes += [("node", name, number + 1, children), ("node", name + "1", number, children), ("node", name, number, children[:-1])]
    if tree[0] == "list":
        changes += [("list", tree[1][:-1]), ("list", tree[1] * 2)]
    return chance.choice(changes)


# ---- of lines

def damaged(lines, chance):
    """Lines with one change: of bytes, of a line, of a number, or one that a reader of JSON allows."""
    rows = lines.split(b"\n")[:-1]
    place = chance.randrange(len(rows))
    row, kind = rows[place], chance.randrange(8)
    at = chance.randrange(len(row))
    if kind == 0:
        rows[place] = row[:at] + chance.choice(PIECES) + row[at + chance.randrange(2):]
    elif kind == 1:
        del rows[place]
    elif kind == 2:
        rows.insert(place, chance.choice((row, b"", b"\"Nothing\"", b'{"List":0}', b'{"Leaf":"Error"}', b"null", b"[]")))
    elif kind == 3:
        rows[place] = NUMBER.sub(chance.choice(NUMBERS), row)
    elif kind == 4:
        rows[place] = chance.choice((b" %s\t", b"%s\r", b"\xef\xbb\xbf%s", b"[%s]", b"%s,", b"%s%s")).replace(b"%s", row)
    elif kind == 5:
        rows[place] = chance.choice((row.replace(b"{", b"{ ", 1), row.replace(b":", b" : "), row.replace(b"e", b"\\u0065")))
    elif kind == 6:
        rows[place] = b'{"Leaf":' + b"[" * chance.choice((1, 126, 127, 5000)) + row
    else:
        return lines[:-1] if chance.random() < 0.5 else lines[:chance.randrange(len(lines))]
    return b"".join(row + b"\n" for row in rows)


# ---- of grammars

def fields(value):
    """The objects that have one of the fields, with the field's name."""
    inside = value.values() if isinstance(value, dict) else value if isinstance(value, list) else ()
    return [(value, name) for name in FIELDS if isinstance(value, dict) and name in value] + [it for part in inside for it in fields(part)]


def overwritten(tree, chance):
    """The tree of a grammar, some parts of which are copies of others in the same field, or odd symbols."""
    tree = copy.deepcopy(tree)
    for _ in range(chance.choice((1, 1, 2, 3, 6))):
        found = fields(tree)
        holder, name = chance.choice(found)
        others = [other[name] for other, its in found if its == name]
        holder[name] = copy.deepcopy(chance.choice(KINDS if name == "kind" and chance.random() < 0.6 else others))
    return tree
