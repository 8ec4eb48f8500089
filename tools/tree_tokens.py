"""Cuts the text of a LALRPOP grammar into tokens; a part of tools/tree.

A token has its kind, what it says, and its span. The kind of a sign or a keyword is its own text. The others:

    name        an identifier
    call        an identifier with `<` right behind it, the name of a macro if one is allowed there
    escape      `NAME`, a name of any characters; what is said has no backquotes
    lifetime    'NAME, what is said has the quote
    string      ".."; what is said are the characters between the quotes, escapes as they are written
    regex       r".." or r#".."#; what is said is what is between the quotes
    char        '..', likewise
    code        `=>` and the code behind it; what is said is the offset at which that code begins
    fallible    the same of `=>?`
    use         `use` and the path behind it, up to the semicolon
    shebang     `#![..]`, the whole of it
    count       {N}, decimal digits in braces; what is said are the digits
    end         behind the last token

Offsets count characters; the reader of rules turns them into byte offsets.

Where LALRPOP's tokenizer does what one might not think, this one does the same. A block comment may stand in another one, also in code.
A raw name, `r#NAME`, is a name with its `r#`, and `r#_` is `_`; in code an `r` with `#` behind it, the last letter of `for` too, begins
such a name or a text `r#".."#`, and nothing else. `=>@` goes on with `L` or `R`. The character behind `#![..]` is passed over, whatever
it is: `#![x]#[y]` is read as `#![x] [y]`. Of LALRPOP's grammars none has a count: no token of theirs begins with a digit.
"""
import re
from collections import namedtuple

Token = namedtuple("Token", "kind said start end")

KEYWORDS = {"dyn", "else", "enum", "extern", "for", "grammar", "if", "in", "match", "mut", "pub", "type", "where"}

# longer signs before those that they begin with
SIGNS = ["!=", "!~", "::", "..", "==", "->", "@L", "@R", "~~",
         "!", "#", "&", "(", ")", "*", "+", ",", ":", ";", "<", "=", ">", "?", "[", "]", "{", "}"]

COUNT = re.compile(r"\{([0-9]+)\}")

OPENING, CLOSING = "([{", ")]}"

# what Unicode calls white space: `str.isspace` takes four control characters more
BLANKS = set("\t\n\v\f\r \x85\xa0\u1680\u2028\u2029\u202f\u205f\u3000") | set(map(chr, range(0x2000, 0x200b)))


class Wrong(Exception):
    """The text is no grammar: what is wrong, and the place, which has no characters where no end is given."""

    def __init__(self, what, at, end=None):
        super().__init__(what)
        self.what, self.at, self.end = what, at, at if end is None else end


def stripped(text):
    """A text without the blanks around it."""
    return text.strip("".join(BLANKS))


def begins_name(c):
    return c.isidentifier()


def goes_on_in_name(c):
    return ("a" + c).isidentifier()


class Scanner:
    """The tokens of a part of a text, one after another."""

    def __init__(self, text, start, end):
        self.text, self.at, self.end = text, start, end
        self.passed_over = None                             # the place of the last character that was, if it is no blank

    def char(self, at):
        """The character at a place, or nothing behind the end."""
        return self.text[at] if at < self.end else ""

    def find(self, what, at):
        """The first place of a text at or behind a place, or None."""
        found = self.text.find(what, at, self.end)
        return None if found < 0 else found

    # ---- what is skipped

    def behind_line(self, at):
        """The end of a comment that goes on to the end of its line."""
        found = self.find("\n", at)
        return self.end if found is None else found

    def behind_block(self, at):
        """Behind a comment in `/* */`; such comments may stand in one another."""
        start, depth = at, 0
        while at < self.end:
            pair = self.text[at:min(at + 2, self.end)]
            depth += (pair == "/*") - (pair == "*/")
            at += 2 if pair in ("/*", "*/") else 1
            if depth == 0:
                return at
        raise Wrong("this comment has no end", start)

    def skip_blanks(self):
        while self.at < self.end:
            pair = self.text[self.at:min(self.at + 2, self.end)]
            if self.text[self.at] in BLANKS:
                self.at += 1
            elif pair == "//":
                self.at = self.behind_line(self.at)
            elif pair == "/*":
                self.at = self.behind_block(self.at)
            else:
                return

    # ---- literals: each call is handed the place of the first sign, and gives the one behind the last

    def behind_quoted(self, at, quote, what):
        """Behind a text between two quotes, in which a backslash takes the quote's meaning."""
        start, at = at, at + 1
        while at < self.end:
            if self.text[at] == quote:
                return at + 1
            at += 2 if self.text[at] == "\\" else 1
        raise Wrong("this %s has no end" % what, start)

    def hashes(self, at):
        """How many `#` stand there."""
        count = 0
        while self.char(at + count) == "#":
            count += 1
        return count

    def behind_raw(self, at):
        """Behind `r"..."` with as many `#` around it as there are; `at` is the place of the `r`."""
        count = self.hashes(at + 1)
        found = self.find('"' + "#" * count, at + count + 2)
        if found is None:
            raise Wrong("this regular expression has no end", at)
        return found + 1 + count

    def behind_hashes(self, at):
        """Behind what `r#` begins, a raw text or a raw name; `at` is the place of the `r`."""
        behind = at + 1 + self.hashes(at + 1)
        if self.char(behind) == '"':
            return self.behind_raw(at)
        if not begins_name(self.char(behind)):
            raise Wrong("behind `r#` a name or a text was expected", at, behind)
        return self.behind_word(behind)

    def behind_word(self, at):
        while at < self.end and goes_on_in_name(self.text[at]):
            at += 1
        return at

    def behind_quote_in_code(self, at):
        """Behind a character, or behind the quote of a lifetime and one more character."""
        if at + 1 >= self.end:
            raise Wrong("this character has no end", at)
        if self.char(at + 1) == "\\":
            found = self.find("'", at + 3)
            if found is None:
                raise Wrong("this character has no end", at)
            return found + 1
        return at + 3 if self.char(at + 2) == "'" else at + 2

    # ---- code

    def behind_code(self, at):
        """The end of code: the first comma, semicolon or closing bracket that stands in no bracket, text or comment."""
        open_ones = []
        while at < self.end:
            c = self.text[at]
            if c == '"':
                at = self.behind_quoted(at, '"', "text")
            elif c == "'":
                at = self.behind_quote_in_code(at)
            elif c == "r" and self.char(at + 1) == "#":
                at = self.behind_hashes(at)
            elif c == "/" and self.char(at + 1) == "/":
                at = self.behind_line(at)
            elif c == "/" and self.char(at + 1) == "*":
                at = self.behind_block(at)
            elif not open_ones and (c in ",;" or c in CLOSING):
                return at
            else:
                if c in OPENING:
                    open_ones.append(at)
                elif c in CLOSING:
                    open_ones.pop()
                at += 1
        if open_ones:
            raise Wrong("this bracket is not closed", open_ones[-1], open_ones[-1] + 1)
        return at

    # ---- tokens

    def token(self, kind, start, end, said=None):
        self.at = end
        return Token(kind, said, start, end)

    def word(self, start, end=None):
        end = self.behind_word(start) if end is None else end
        said = self.text[start:end]
        if said in ("_", "r#_"):
            return self.token("_", start, end)
        if said == "use":
            behind = self.behind_code(end)
            return self.token("use", start, behind, stripped(self.text[end:behind]))
        if said in KEYWORDS:
            return self.token(said, start, end)
        return self.token("call" if self.char(end) == "<" else "name", start, end, said)

    def quote(self, start):
        """A lifetime or a character: a name and no second quote is a lifetime."""
        end = start + 1
        if begins_name(self.char(end)):
            end = self.behind_word(end)
            if self.char(end) != "'":
                return self.token("lifetime", start, end, self.text[start:end])
            return self.token("char", start, end + 1, self.text[start + 1:end])
        end = self.behind_quoted(start, "'", "character")
        return self.token("char", start, end, self.text[start + 1:end - 1])

    def arrow(self, start):
        """`=>` and what belongs to it."""
        behind = start + 2
        for sign in ("@L", "@R"):
            if self.text.startswith(sign, behind) and behind + 2 <= self.end:
                return self.token("=>" + sign, start, behind + 2)
        if self.char(behind) == "@":
            raise Wrong("`=>@` is `=>@L` or `=>@R`; code that begins with `@` has a blank before it", start, behind + 1)
        kind = "fallible" if self.char(behind) == "?" else "code"
        behind += kind == "fallible"
        return self.token(kind, start, self.behind_code(behind), behind)

    def shebang(self, start):
        """`#![..]`, on one line. The character behind it is passed over."""
        at, depth = start + 2, 0
        while at < self.end and self.text[at] != "\n":
            c = self.text[at]
            if c == '"':
                at = self.behind_quoted(at, '"', "text")
                continue
            depth += (c == "[") - (c == "]")
            at += 1
            if depth == 0:
                found = self.token("shebang", start, at, self.text[start:at])
                self.passed_over = at if self.char(at) and self.text[at] not in BLANKS else None
                self.at = min(at + 1, self.end)
                return found
        raise Wrong("this attribute has no end on its line", start, start + 3)

    def raw(self, start):
        """A regular expression `r".."`, or a raw name."""
        count = self.hashes(start + 1)
        end = self.behind_hashes(start)
        if self.char(start + 1 + count) != '"':
            return self.word(start, end)
        return self.token("regex", start, end, self.text[start + count + 2:end - count - 1])

    def next(self):
        self.skip_blanks()
        start, c = self.at, self.char(self.at)
        if not c:
            return Token("end", None, start, start)
        pair = c + self.char(start + 1)
        if c == "r" and pair[1:] in ("#", '"'):
            return self.raw(start)
        if begins_name(c):
            return self.word(start)
        if c == '"':
            end = self.behind_quoted(start, '"', "text")
            return self.token("string", start, end, self.text[start + 1:end - 1])
        if c == "'":
            return self.quote(start)
        if c == "`":
            end = self.find("`", start + 1)
            if end is None:
                raise Wrong("this name in backquotes has no end", start)
            return self.token("escape", start, end + 1, self.text[start + 1:end])
        if pair == "=>":
            return self.arrow(start)
        if pair == "#!" and self.char(start + 2) == "[":
            return self.shebang(start)
        count = COUNT.match(self.text, start, self.end)
        if count:
            return self.token("count", start, count.end(), count.group(1))
        for sign in SIGNS:
            if pair.startswith(sign):
                return self.token(sign, start, start + len(sign))
        if c == "\ufeff":
            raise Wrong("a mark of byte order stands here; save the file without one, as UTF-8", start, start + 1)
        raise Wrong("no token begins with %s" % (c if c.isprintable() else "the character U+%04X" % ord(c)), start, start + 1)
