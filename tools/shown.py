"""Shows a span of a text: file, line and column, the lines that it is in, and carets under it; a part of tools/tree and tools/lnorm.

    grammar.lalrpop:7:20: a message on what is wrong
    7 |     <l:Sum> "+" <r:Prod> => l + r,
      |                    ^^^^

- Lines and columns count from 1, columns in characters. A line ends with a line feed.
- In what is shown a tab is four blanks wide, a wide character two, a combining one none. The carets take that into account.
- Control characters, which a terminal would obey, have others in their place.
- If a span is on at most three lines, each is shown, else the first and the last. A span without characters has one caret.
- A line of more than 120 columns is cut to what is around the span. The middle of a very long message is left out.
- Colours are those of rustc: the location is bold, a code and its carets are red, a note and its carets are green.
"""
import os
import re
import unicodedata

WIDEST, BEFORE, MOST_LINES = 120, 40, 3
BLANKS_OF_TAB, LONGEST_MESSAGE = 4, 400
BOLD, RED, GREEN = "1", "1;31", "1;32"
WHEN = ("auto", "always", "never")


def is_coloured(stream, when="auto"):
    """Whether a stream gets colours. By `auto` it does if it is a terminal, NO_COLOR is not set or empty, and TERM is not `dumb`."""
    if when == "auto":
        return stream.isatty() and not os.environ.get("NO_COLOR") and os.environ.get("TERM") != "dumb"
    return when == "always"


def painted(text, colour, is_on):
    return "\033[%sm%s\033[0m" % (colour, text) if is_on and text else text


def cell(c):
    """How a character is shown, and how many columns that takes."""
    kind = unicodedata.category(c)
    if c == "\t":
        return " " * BLANKS_OF_TAB, BLANKS_OF_TAB
    if c < " " or c == "\x7f":
        return chr(0x2421 if c == "\x7f" else 0x2400 + ord(c)), 1
    if kind in ("Cc", "Zl", "Zp") or unicodedata.bidirectional(c) in ("LRE", "RLE", "LRO", "RLO", "PDF", "LRI", "RLI", "FSI", "PDI"):
        return "\ufffd", 1
    if kind in ("Mn", "Me") or kind == "Cf" and c != "\xad" or "\u1160" <= c <= "\u11ff":
        return c, 0
    return c, 2 if unicodedata.east_asian_width(c) in "WF" else 1


def plain(message):
    """A message in which no control character is left, without the middle of a very long one."""
    if len(message) > LONGEST_MESSAGE:
        message = message[:LONGEST_MESSAGE // 2] + " .. " + message[-LONGEST_MESSAGE // 2:]
    return "".join(cell(c)[0] for c in message)


def cut(cells, start):
    """The range of a line's cells that is shown: all, or what is around the cell at `start`."""
    if sum(width for _, width in cells) <= WIDEST:
        return 0, len(cells)
    first, room = start, BEFORE
    while first > 0 and room >= cells[first - 1][1]:
        first -= 1
        room -= cells[first][1]
    last, room = first, WIDEST
    while last < len(cells) and room >= cells[last][1]:
        room -= cells[last][1]
        last += 1
    return first, last


def marked(line, start, end):
    """A line as it is shown, and the carets under a part of it, at least one."""
    cells = [cell(c) for c in line]
    first, last = cut(cells, start)
    before, after = "..." if first else "", "..." if last < len(cells) else ""

    def width(a, b):
        return sum(width for _, width in cells[a:b])

    shown = before + "".join(text for text, _ in cells[first:last]) + after
    return shown.rstrip(), " " * (len(before) + width(first, start)) + "^" * max(1, width(start, min(end, last)))


class Text:
    """A text and where its lines begin. Offsets count characters."""

    def __init__(self, text):
        self.text, self.starts = text, [0]
        while True:
            found = text.find("\n", self.starts[-1])
            if found < 0:
                break
            self.starts.append(found + 1)

    def behind_bytes(self, count):
        """The offset behind so many bytes: before the character that they end in, or the end of the text."""
        return len(self.text.encode("utf-8", "surrogatepass")[:count].decode("utf-8", "ignore"))

    def line_of(self, at):
        """The index of the line, from 0, that has a character."""
        low, high = 0, len(self.starts)
        while high - low > 1:
            middle = (low + high) // 2
            low, high = (middle, high) if self.starts[middle] <= at else (low, middle)
        return low

    def line_and_column(self, at):
        line = self.line_of(at)
        return line + 1, at - self.starts[line] + 1

    def line(self, number):
        """The characters of a line, without its end."""
        start = self.starts[number]
        end = self.starts[number + 1] - 1 if number + 1 < len(self.starts) else len(self.text)
        return self.text[start:end][:-1] if self.text[start:end].endswith("\r") else self.text[start:end]

    def shown(self, start, end, colour=RED, is_on=False):
        """The lines that show a span."""
        first, last = self.line_of(start), self.line_of(max(start, end - 1))
        numbers = list(range(first, last + 1)) if last - first < MOST_LINES else [first, None, last]
        gutter, found = len(str(last + 1)), []
        for number in numbers:
            if number is None:
                found.append("...")
                continue
            line = self.line(number)
            begin = min(start - self.starts[number], len(line)) if number == first else len(line) - len(line.lstrip())
            text, carets = marked(line, begin, min(end - self.starts[number], len(line)))
            found.append(("%*d | %s" % (gutter, number + 1, text)).rstrip())
            if line.strip() or number == first:
                blanks = len(carets) - len(carets.lstrip())
                found.append("%*s | %s%s" % (gutter, "", carets[:blanks], painted(carets[blanks:], colour, is_on)))
        return found


def told(name, message, text=None, start=0, end=0, is_on=False):
    """What is wrong with a file, at a span of its text if that is known, as lines for people; in colours if `is_on`."""
    found = re.match(r"(?:F[0-9]+[a-z]?|note)(?=: )", message)
    kind = found.group() if found else ""
    colour = GREEN if kind == "note" else RED
    message = painted(kind, colour, is_on) + plain(message)[len(kind):]
    if text is None:
        return ["%s %s" % (painted(name + ":", BOLD, is_on), message)]
    place = "%s:%d:%d:" % ((name,) + text.line_and_column(start))
    return ["%s %s" % (painted(place, BOLD, is_on), message)] + text.shown(start, max(start, end), colour, is_on)
