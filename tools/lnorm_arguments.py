"""The command line of tools/lnorm."""
import re

from shown import WHEN

STDIN = "<stdin>"
USAGE = ("usage: tools/lnorm FILE.. [--limit N] [--feature F].. [--origins] [--json] [--color WHEN] [--program PROGRAM]\n"
         "`tools/lnorm --help` says more")
WITH_VALUE = ("--limit", "--feature", "--program", "--color")
WITHOUT_VALUE = ("--origins", "--json")
COMMA = "tools/lnorm: warning: `--feature %s` is ONE feature, named `%s`; these are several: `%s`"


class Arguments:
    """What the arguments say; `given` are those that the program gets. A ValueError says what is wrong with them."""

    def __init__(self, words):
        self.files, self.given, self.is_json, self.program, self.color, self.features = [], [], False, None, "auto", []
        words = list(words)
        while words:
            word = words.pop(0)
            if word == "--":
                for name in words:
                    self.add_file(name)
                break
            if word.startswith("-") and word != "-":
                self.option(word, words)
            else:
                self.add_file(word)
        if not self.files:
            raise ValueError("no file is named")

    def add_file(self, word):
        name = STDIN if word == "-" else word
        if name == STDIN and name in self.files:
            raise ValueError("standard input is named twice")
        self.files.append(name)

    def option(self, word, rest):
        """Takes an option, with its value behind `=` or in the next argument."""
        option, equals, value = word.partition("=")
        if option in WITHOUT_VALUE:
            if equals:
                raise ValueError("%s takes no value" % option)
            self.is_json = self.is_json or option == "--json"
            self.given += [option] if option == "--origins" else []
        elif option in WITH_VALUE:
            if not equals and not rest:
                raise ValueError("%s needs a value" % option)
            self.take(option, value if equals else rest.pop(0))
        else:
            raise ValueError("there is no option %s" % word)

    def take(self, option, value):
        if option == "--program":
            self.program = value
            return
        if option == "--color":
            if value not in WHEN:
                raise ValueError("--color takes `auto`, `always` or `never`, not %s" % value)
            self.color = value
            return
        if option == "--limit" and not (re.fullmatch(r"\+?[0-9]+", value, re.A) and int(value) < 65536):
            raise ValueError("--limit takes a number up to 65535, not %s" % value)
        if re.search("[\ud800-\udfff]", value):
            raise ValueError("the value of %s is not UTF-8" % option)
        self.features += [value] if option == "--feature" else []
        self.given += [option, value]

    def warnings(self):
        """A feature with a comma in its name is most likely meant as several."""
        return [COMMA % (it, it, " ".join("--feature " + part for part in it.split(",") if part)) for it in self.features if "," in it]
