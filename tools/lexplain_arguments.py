"""The command line of tools/lexplain."""
import re

from lnorm_arguments import COMMA, STDIN
from shown import WHEN

USAGE = ("usage: tools/lexplain GRAMMAR --sentence SENTENCE [--rule R] [--most N] [--lines] [OPTION..]\n"
         "       tools/lexplain GRAMMAR explain|lower|ambiguous [--lines] [OPTION..] < TREE\n"
         "`tools/lexplain --help` says more")
WAYS = ("explain", "lower", "ambiguous")
WITH_VALUE = ("--sentence", "--rule", "--most", "--limit", "--feature", "--program", "--color")


class Arguments:
    """What the arguments say; `given` are those that the program gets. A ValueError says what is wrong with them."""

    def __init__(self, words):
        self.way, self.sentence, self.rule, self.most, self.has_lines = None, None, None, 10, False
        self.given, self.features, self.program, self.color = [], [], None, "auto"
        words, names = list(words), []
        while words:
            word = words.pop(0)
            if word == "--":
                names += words
                break
            if word.startswith("-") and word != "-":
                self.option(word, words)
            else:
                names.append(word)
        self.take_names(names)

    def take_names(self, names):
        if not names:
            raise ValueError("no grammar is named")
        # (the program has the word before the grammar)
        if names[0] in WAYS and len(names) == 2:
            names = names[::-1]
        self.file = STDIN if names[0] == "-" else names[0]
        if len(names) > 2:
            raise ValueError("one grammar is taken, not `%s` as well" % names[2])
        if len(names) == 2 and names[1] not in WAYS:
            raise ValueError("behind the grammar there may be `explain`, `lower` or `ambiguous`, not `%s`" % names[1])
        self.way = names[1] if len(names) == 2 else None
        if (self.way is None) == (self.sentence is None):
            raise ValueError("a sentence or one of `explain`, `lower` and `ambiguous` is needed" if self.way is None
                             else "--sentence and `%s` exclude each other" % self.way)
        if self.way and self.rule is not None:
            raise ValueError("--rule belongs to --sentence")
        if self.way and self.file == STDIN:
            raise ValueError("standard input has the tree, so the grammar can't be `-`")

    def option(self, word, rest):
        """Takes an option, with its value behind `=` or in the next argument."""
        option, equals, value = word.partition("=")
        if option == "--lines":
            if equals:
                raise ValueError("--lines takes no value")
            self.has_lines = True
        elif option in WITH_VALUE:
            if not equals and not rest:
                raise ValueError("%s needs a value" % option)
            self.take(option, value if equals else rest.pop(0))
        else:
            raise ValueError("there is no option %s" % word)

    def take(self, option, value):
        if option == "--color" and value not in WHEN:
            raise ValueError("--color takes `auto`, `always` or `never`, not %s" % value)
        if option == "--most" and not (re.fullmatch("[0-9]+", value, re.A) and int(value)):
            raise ValueError("--most takes a number from 1, not %s" % value)
        if option == "--limit" and not (re.fullmatch(r"\+?[0-9]+", value, re.A) and int(value) < 65536):
            raise ValueError("--limit takes a number up to 65535, not %s" % value)
        if re.search("[\ud800-\udfff]", value) and option != "--program":
            raise ValueError("the value of %s is not UTF-8" % option)
        self.features += [value] if option == "--feature" else []
        self.given += [option, value] if option in ("--limit", "--feature") else []
        if option not in ("--limit", "--feature"):
            setattr(self, option[2:], int(value) if option == "--most" else value)

    def warnings(self):
        """A feature with a comma in its name is most likely meant as several."""
        return [COMMA.replace("tools/lnorm", "tools/lexplain") % (it, it, " ".join("--feature " + part for part in it.split(",") if part))
                for it in self.features if "," in it]
