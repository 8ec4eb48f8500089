"""Which texts are patterns, and where a pattern is found, by Python's `re`; a part of wanted.py.

Known is only what is in the lists below, of which Python's `re` and Rust's `regex` make the same, or which the documents of `regex`
exclude: lookaround, a reference to a group, and a part of a character. All else is `Unknown`: classes in
classes and operators on them, names of Unicode, flags other than `i`, `s` and `x` or behind the beginning, repeats of repeats and
of assertions, counts of a hundred or more, `{`, `}` and `]` by themselves, escapes that are not listed, and what may pass a limit
of size or depth. A fault is known if all before it is in the lists, since no text behind it makes a pattern of it.
"""
import re

from wanted_forms import Unknown

SIGNS = "\\.+*?()|[]{}^$#&-~"
CONTROLS = {"a": "\a", "f": "\f", "n": "\n", "r": "\r", "t": "\t", "v": "\v"}
CLASSES = "dDsSwW"
LOOKAROUNDS = ("(?=", "(?!", "(?<=", "(?<!")
NESTED = 250
SIZE = 1000


class Bad(Exception):
    """The text is no pattern."""


class Frame:
    """A group that is open: the size of it, the depth of its closed branches, and of the last branch the parts, their depth, and
    whether the last part may be repeated."""

    def __init__(self):
        self.size, self.deepest, self.branches, self.parts, self.depth, self.is_open = 0, 0, 0, 0, 0, False

    def add(self, size, depth, may_repeat):
        self.parts += 1
        self.last = size, depth
        self.is_open = may_repeat
        self.size += size
        self.depth = max(self.depth, depth)

    def close_branch(self):
        self.deepest = max(self.deepest, self.depth + (self.parts > 1))
        self.branches += 1
        self.parts, self.depth, self.is_open = 0, 0, False

    def close(self):
        """Its depth."""
        self.close_branch()
        return self.deepest + (self.branches > 1)


class Reader:
    """Reads one text, and writes what Python is to look for."""

    def __init__(self, text):
        self.text, self.at, self.flags, self.names = text, 0, set(), set()
        self.is_plain, self.python = True, []

    def rest(self, count=1):
        return self.text[self.at:self.at + count]

    def take(self, expression):
        """What stands here and matches the expression, if anything does; it is read."""
        found = re.compile(expression).match(self.text, self.at)
        if found:
            self.at = found.end()
        return found

    def write(self, text):
        self.python.append(text)

    def read(self):
        flags = self.take(r"\(\?([isx]+)\)")
        if flags:
            self.flags = set(flags[1])
            if len(self.flags) < len(flags[1]):
                raise Unknown
            self.write(flags[0])
        stack = [Frame()]
        while self.at < len(self.text):
            self.read_one(stack)
        if len(stack) > 1:
            raise Bad
        if stack[0].close() > NESTED or stack[0].size > SIZE:
            raise Unknown

    def read_one(self, stack):
        sign, frame = self.rest(), stack[-1]
        if sign == "(":
            self.open_group(stack)
        elif sign == ")":
            if len(stack) == 1:
                raise Bad
            self.advance()
            stack.pop()
            stack[-1].add(frame.size, frame.close() + 1, True)
        elif sign == "|":
            self.advance()
            frame.close_branch()
        elif sign in "?*+{":
            self.repeat(frame)
        else:
            self.read_item(frame, sign)

    def advance(self):
        self.write(self.rest())
        self.at += 1

    def open_group(self, stack):
        if any(self.rest(len(l)) == l for l in LOOKAROUNDS):
            raise Bad
        if self.take(r"\(\?-u:(\\x[89A-Fa-f][0-9A-Fa-f]|\\[DSW])\)"):
            raise Bad
        name = self.take(r"\(\?P<([A-Za-z_][A-Za-z0-9_]*)>")
        if name:
            if name[1] in self.names:
                raise Bad
            self.names.add(name[1])
        elif not self.take(r"\(\?:"):
            if self.take(r"\((?=\?)") or "x" in self.flags and self.take(r"\((?=\s)"):
                raise Unknown
            self.at += 1
        self.write(name[0] if name else "(?:")
        stack.append(Frame())
        if len(stack) > NESTED + 1:
            raise Unknown

    def repeat(self, frame):
        """Repeats the last part; of an assertion and of a repeat nothing is told."""
        counted = self.take(r"\{([0-9]{1,2})(,([0-9]{1,2})?)?\}")
        if self.rest() == "{" and not counted or frame.parts and not frame.is_open:
            raise Unknown
        if not frame.parts:
            raise Bad
        if not counted:
            self.advance()
        else:
            self.write(counted[0])
            if counted[3] and int(counted[3]) < int(counted[1]):
                raise Bad
        if self.rest() == "?":
            self.advance()
        size, depth = frame.last
        times = max(int(counted[1]), int(counted[3] or 0), 1) if counted else 1
        frame.size += size * (times + 1)
        frame.depth = max(frame.depth, depth + 1)
        frame.is_open = False

    def read_item(self, frame, sign):
        if "x" in self.flags and (sign.isspace() or sign == "#"):
            if not self.take(r"[ \t\n]|#[^\n\r\v\f\x85\u2028\u2029]*(\n|$)"):
                raise Unknown
            return
        if sign == "\\":
            self.escape(frame)
        elif sign == "[":
            self.bracket(frame)
        elif sign in "]}":
            raise Unknown
        elif sign in "^$":
            self.at += 1
            self.assertion(frame, {"^": "^", "$": r"\Z"}[sign])
        else:
            self.at += 1
            self.one(frame, "." if sign == "." else re.escape(sign), 10 if sign == "." else 1)

    def one(self, frame, python, size):
        self.write(python)
        frame.add(size, 0, True)

    def assertion(self, frame, python):
        self.write(python)
        frame.add(1, 0, False)

    def escape(self, frame):
        literal = self.escaped()
        if literal is not None:
            self.one(frame, re.escape(literal), 1)
        elif self.rest(2)[1:] in tuple(CLASSES):
            self.is_plain = False
            self.one(frame, self.rest(2), 10)
            self.at += 2
        elif self.take(r"\\A"):
            self.assertion(frame, r"\A")
        elif self.take(r"\\z"):
            self.assertion(frame, r"\Z")
        elif self.take(r"\\b(?!{)"):
            self.is_plain = False
            self.assertion(frame, r"\b")
        elif self.take(r"\\([1-9]|$)"):
            raise Bad
        else:
            raise Unknown

    def escaped(self):
        """The character of an escape, if one stands here."""
        code = self.take(r"\\x([0-9A-Fa-f]{2})")
        if code:
            return chr(int(code[1], 16))
        sign = self.rest(2)[1:]
        if self.rest() != "\\" or not sign or sign not in SIGNS and sign not in CONTROLS:
            return None
        self.at += 2
        return CONTROLS.get(sign, sign)

    def bracket(self, frame):
        """A class of characters, ranges and escapes."""
        if "x" in self.flags:
            raise Unknown
        self.at += 1
        negated = bool(self.take(r"\^"))
        parts = ["^"] if negated else []
        if self.take(r"-(?![-\]])"):
            parts.append(r"\-")
        while self.rest() != "]":
            if not self.rest():
                raise Bad
            parts.append(self.member(negated))
        if len(parts) == negated:
            raise Unknown
        self.at += 1
        self.one(frame, "[" + "".join(parts) + "]", 10)

    def member(self, negated):
        if self.rest(2)[1:] in tuple(CLASSES) and self.rest() == "\\":
            self.is_plain = False
            found = self.rest(2)
            self.at += 2
            if negated and found[1].isupper() or self.rest() == "-":
                raise Unknown
            return found
        low = self.character()
        if self.take(r"-(?=\])"):
            return re.escape(low) + r"\-"
        high = self.character() if self.take("-") else low
        if high < low:
            raise Bad
        if negated and low < "\t":
            raise Unknown
        return re.escape(low) + "-" + re.escape(high)

    def character(self):
        literal = self.escaped()
        if literal is not None:
            return literal
        sign = self.rest()
        if sign == "" or sign == "\\" and len(self.rest(2)) == 1:
            raise Bad
        if sign in "[]\\-" or self.rest(2) in ("&&", "~~"):
            raise Unknown
        self.at += 1
        return sign


def is_pattern(text):
    try:
        Reader(text).read()
    except Bad:
        return False
    return True


def is_found(pattern, text):
    """Whether the pattern matches somewhere in the text; it is one. Named classes are those of ASCII here, and so are cases."""
    reader = Reader(pattern)
    reader.read()
    if not reader.is_plain and (not text.isascii() or re.search("[\x1c-\x1f]", text)):
        raise Unknown
    if "i" in reader.flags and (not pattern.isascii() or re.search("[\u0130\u0131\u017f\u212a]", text)):
        raise Unknown
    try:
        return re.search("".join(reader.python), text) is not None
    except re.error:
        raise Unknown from None
