"""The command line of tools/conflicts."""
import re

from shown import WHEN

USAGE = ("usage: tools/conflicts GRAMMAR [--rule R] [--sentence S] [--all] [--seconds N] [--no-bison] [--json] [--limit N] [--feature F].. "
         "[--color WHEN] [--program PROGRAM]\n`tools/conflicts --help` says more")
WITH_VALUE = {"--rule": "rule", "--sentence": "sentence", "--seconds": "seconds", "--limit": "limit", "--feature": "features",
              "--color": "color", "--program": "program"}
WITHOUT_VALUE = {"--all": "is_all", "--json": "is_json", "--no-bison": "is_without_bison"}


class Arguments:
    """What the arguments say; `given` are those that the program gets. A ValueError says what is wrong with them."""

    def __init__(self, words):
        self.files, self.given, self.features, self.color = [], [], [], "auto"
        self.rule = self.sentence = self.program = None
        self.seconds, self.is_all, self.is_json, self.is_without_bison = 2.0, False, False, False
        words = list(words)
        while words:
            word = words.pop(0)
            if word == "--":
                self.files += words
                break
            if word.startswith("-") and word != "-":
                self.option(word, words)
            else:
                self.files.append(word)
        if len(self.files) != 1:
            raise ValueError("one grammar is taken, not %d" % len(self.files))

    def option(self, word, rest):
        option, equals, value = word.partition("=")
        if option in WITHOUT_VALUE:
            if equals:
                raise ValueError("%s takes no value" % option)
            setattr(self, WITHOUT_VALUE[option], True)
        elif option in WITH_VALUE:
            if not equals and not rest:
                raise ValueError("%s needs a value" % option)
            self.take(option, value if equals else rest.pop(0))
        else:
            raise ValueError("there is no option %s" % word)

    def take(self, option, value):
        if option == "--color" and value not in WHEN:
            raise ValueError("--color takes `auto`, `always` or `never`, not %s" % value)
        if option == "--seconds" and not re.fullmatch(r"[0-9]+(\.[0-9]*)?", value, re.A):
            raise ValueError("--seconds takes a number, not %s" % value)
        if option == "--limit" and not (re.fullmatch(r"\+?[0-9]+", value, re.A) and int(value) < 65536):
            raise ValueError("--limit takes a number up to 65535, not %s" % value)
        if option in ("--limit", "--feature"):
            self.given += [option, value]
            self.features += [value] if option == "--feature" else []
        else:
            setattr(self, WITH_VALUE[option], float(value) if option == "--seconds" else value)
