"""Lemmas which say of two definitions that each walk over symbols, or over written types, that they are one."""
import os
import re

# A definition that has an equation for each of these lists the kinds of symbols, or the forms of written types.
WALKS = (("chosen", "named", "tupled"), ("slice", "reference", "trait_object"))
EQUATION = re.compile(r"^\s*(?:abbrev |unfoldable )?([a-z][\w-]*) (.+?) =(?: |$)")
STATEMENT = re.compile(r"^( *)(?:pub )?([a-z][\w-]*) : (.*)$")
BINDERS = re.compile(r"^(?:\s*[({][^(){}:]+ : (?:[^(){}]|\([^()]*\))*[)}])+\s*")
INSIDE, OUTSIDE = "({[", ")}]"


def walks_of(crates):
    """The names of all definitions of specs/ that walk by themselves."""
    found = set()
    for folder, _, files in os.walk(crates):
        if f"{os.sep}specs" not in folder:
            continue
        for file in files:
            seen = {}
            with open(os.path.join(folder, file), encoding="utf-8") as opened:
                for equation in map(EQUATION.match, opened):
                    if equation:
                        seen.setdefault(equation.group(1), set()).update(re.findall(r"[\w.]+", equation.group(2)))
            found |= {name for name, words in seen.items() if any(words.issuperset(kinds) for kinds in WALKS)}
    return found


def parted(text, sign):
    """The parts of a text between the signs that no bracket encloses."""
    parts, depth, begin = [], 0, 0
    for at, letter in enumerate(text):
        depth += (letter in INSIDE) - (letter in OUTSIDE)
        if not depth and text.startswith(sign, at):
            parts.append(text[begin:at].strip())
            begin = at + len(sign)
    return [*parts, text[begin:].strip()]


def statements(text):
    """Each statement of a file, those inside of a `mutual` or a `module` too: its name, and its text on one line."""
    lines = text.split("\n")
    for at, line in enumerate(lines):
        head = STATEMENT.match(line)
        if head:
            statement, end = head.group(3), at + 1
            while end < len(lines) and lines[end].startswith(head.group(1) + "    "):
                statement += " " + lines[end].strip()
                end += 1
            yield head.group(2), statement


def says_two_are_one(statement, walks):
    """Whether a statement ends in `f .. x ≡ g .. x`, where f and g are two of these definitions."""
    sides = parted(BINDERS.sub("", parted(statement, " → ")[-1]), " ≡ ")
    if len(sides) != 2:
        return False
    left, right = (parted(side, " ") for side in sides)
    return left[0] != right[0] and {left[0], right[0]} <= walks and left[-1] == right[-1]
