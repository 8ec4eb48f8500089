"""A document as tools/docs reads it: its lines, paragraphs, tables and anchors; and the forms of code, links, numbers and paths."""
import collections
import re

from docs_facts import ANY_NAME, EDITS, read

ENDINGS = (".md", ".rt", ".antt", ".json", ".py", ".edit", ".txt", ".tsv", ".lalrpop", ".expected", ".rs", ".toml", ".c", ".h")
TOPS = ("crates", "docs", "tools", "bench", "examples", ".ci")
PARTS = ("src", "specs", "proofs", "data") + EDITS
MADE = re.compile(r"(^|/)out(/|$)")
CODE = re.compile(r"`([^`]+)`")
LINK = re.compile(r"\[[^\]]*\]\(([^)\s]+)\)")
WORDS = ("zero one two three four five six seven eight nine ten eleven twelve thirteen fourteen fifteen sixteen seventeen eighteen "
         "nineteen").split()
TENS = "twenty thirty forty fifty sixty seventy eighty ninety".split()
NUMBER = r"(\d[\d,]*|(?:%s)(?:-(?:%s))?|%s)" % ("|".join(TENS), "|".join(WORDS[1:10]), "|".join(sorted(WORDS, key=len, reverse=True)))


def value_of(text):
    """The number that digits or words say."""
    if text[0].isdigit():
        return int(text.replace(",", ""))
    head, _, rest = text.partition("-")
    return WORDS.index(text) if text in WORDS else 10 * (TENS.index(head) + 2) + (WORDS.index(rest) if rest else 0)


class Document:
    """A document: its lines, without those of code blocks, and its paragraphs."""

    def __init__(self, path, text=None):
        self.path = path
        self.lines, self.text, fenced = [], read(path) if text is None else text, False
        before = ""
        for number, line in enumerate(self.text.split("\n"), 1):
            fence = line.lstrip().startswith("```")
            fenced ^= fence
            indented = line.startswith("    ") and not before.strip() and not re.match(r" *([-*]|\d+\.) ", line)
            self.lines.append((number, "" if fence or fenced or indented else line))
            before = "" if indented else line

    def prose(self):
        """The paragraphs and entries of lists, each with the number of its first line; no tables and no headings."""
        start, block = 0, []
        for number, line in self.lines + [(0, "")]:
            is_end = not line.strip() or line.startswith(("|", "#")) or re.match(r" *([-*]|\d+\.) ", line)
            if is_end and block:
                yield start, " ".join(block)
                block = []
            if line.strip() and not line.startswith(("|", "#")):
                start = start if block else number
                block.append(line.strip())

    def tables(self):
        """Each table as its headings and its rows; a row is its number and its cells."""
        rows = []
        for number, line in self.lines + [(0, "")]:
            if line.startswith("|"):
                rows.append((number, cells(line)))
            elif rows:
                if len(rows) > 2:
                    yield rows[0][1], rows[2:]
                rows = []

    def anchors(self):
        found, seen = set(), collections.Counter()
        for _, line in self.lines:
            if line.startswith("#"):
                name = re.sub(r"[^\w\- ]", "", re.sub(r"\[([^\]]*)\]\([^)]*\)", r"\1", line.lstrip("#").strip()).lower()).replace(" ", "-")
                found.add(name + "-%d" % seen[name] if seen[name] else name)
                seen[name] += 1
        return found | set(re.findall(r'<a (?:id|name)="([^"]+)"', self.text))


def cells(line):
    """The cells of a table's row: bars inside of code, or behind a backslash, part nothing."""
    parts, cell, in_code = [], "", False
    for at, mark in enumerate(line):
        in_code ^= mark == "`"
        if mark == "|" and not in_code and line[at - 1:at] != "\\":
            parts.append(cell.strip())
            cell = ""
        else:
            cell += mark
    return parts[1:]


def is_path(word):
    """Whether a piece of code has the form of a path."""
    if not re.fullmatch(r"[\w.*+-]+(/[\w.*+-]+)*/?", word) or word.replace("/", "").isupper() or MADE.search(word) or ".." == word[:2] and "/" not in word:
        return False
    head = word.split("/")[0]
    if "/" in word:
        return head in TOPS + PARTS + (".", "..") or word.endswith(ENDINGS)
    return word.endswith(ENDINGS) and not word.startswith(".") and not ANY_NAME.search(word)
