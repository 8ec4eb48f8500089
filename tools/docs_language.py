"""What tools/docs checks of the language: words, figures, promises, length."""
import collections
import re

from docs_text import CODE, LINK

# Sentences that say how to read what stands below them: each README that has clauses is to be read by itself.
EVERYWHERE = ("every function is proved to be safe and to return",)
AGING = re.compile(r"(?i)\b(today|so far(?! as\b)|until now|currently|at the moment|nowadays|for now|right now|recently)\b")
CITED = re.compile(r"(?<![\w`.])([TDWR][1-9]\d?)(?![\w`])|\b((?:row|rule|issue|paper|review|demand|requirement|point) #?\d+)\b")
MACHINE = re.compile(r"(?<![\w.~])/(?:work|tmp|opt|home|root|usr|farm|var|etc)(?:/|\b)")
MOST_NUMBERS = 12
LONG_SENTENCE = 12


def language(_, document, __):
    for number, line in enumerate(document.text.split("\n"), 1):
        for match in MACHINE.finditer(line):
            yield number, "`%s` is a path of a machine" % match.group(0)
    for number, line in document.lines:
        plain = CODE.sub(" ", line)
        for match in AGING.finditer(plain):
            yield number, "\"%s\" is a word that ages" % match.group(0)
        for match in CITED.finditer(plain):
            yield number, "\"%s\" cites by number what does not stand here" % (match.group(1) or match.group(2))
        for word in re.findall(r"\b[A-Z]+_[A-Z_]+\b", LINK.sub(" ", plain)):
            yield number, "%s stands for what was to be filled in" % word


def figures(_, document, __):
    for number, text in document.prose():
        plain = LINK.sub(" ", CODE.sub(" ", text))
        found = re.findall(r"(?<![\w.,])\d[\d,.]*(?!\w)", plain)
        if len(found) > MOST_NUMBERS:
            yield number, "%d numbers in one paragraph: make a table of them" % len(found)


def sentences(document):
    for number, text in document.prose():
        plain = re.sub(r"\[([^\]]*)\]\([^)]*\)", r"\1", re.sub(r"^([-*]|\d+\.) ", "", text)).replace("**", "").replace("`", "")
        for sentence in re.split(r"(?<=[.:;?!])\s+", plain):
            yield number, " ".join(re.findall(r"[\w'.<>/:-]*\w", sentence.lower()))


def twice_told(documents):
    """Sentences of more than twelve words that stand in two documents."""
    places = collections.defaultdict(list)
    for path, document in sorted(documents.items()):
        for number, sentence in sentences(document):
            if len(sentence.split()) > LONG_SENTENCE and not any(sentence.startswith(start) for start in EVERYWHERE):
                places[sentence].append((path, number))
    for sentence, found in places.items():
        for path, number in found[1:]:
            if path != found[0][0]:
                yield path, number, "this stands in %s:%d too: \"%s ..\"" % (found[0] + (" ".join(sentence.split()[:8]),))


# ---- words that the field does not have, and the field's

GLOSSARY = "docs/language/GLOSSARY.md"
PRIVATE = [(re.compile(r"(?i)\b(?:%s)\b" % private), field) for private, field in (
    (r"want of memory|memory (?:is|was) (?:refused|wanting)", "out of memory"),
    (r"growths? (?:of memory )?(?:that (?:is|are) |is |are )refused|refused growths?", "a failed allocation"),
    (r"refusals?|(?:is|are|was|be) refused for", "an error; is rejected with"),
    (r"wrong (?:edits?|bod(?:y|ies))|mutant edits?", "mutants"),
    (r"(?:by|of) chance|second opinions?", "random; reference implementation"),
    (r"(?<!exit )status(?:es)?(?! code)", "exit status"),
    (r"given again", "re-exported"),
    (r"lets? go|the releases? of|(?:is|are) released", "dropped"),
    (r"own occurrences?", "recursive occurrence"),
    (r"handed on", "inherited"),
    (r"made rules?|(?:is|are) made into (?:a )?rules?", "generated nonterminal; is desugared to"),
    (r"plain rules?", "expanded grammar"),
    (r"closed symbols?", "ground symbol"),
    (r"grounded", "derivable"),
    (r"(?:is|are|was|were|been) met", "reached"),
    (r"chosen (?:symbols?|parts?)", "selected symbol"),
    (r"lookarounds?", "location symbol, `@L` or `@R`"),
    (r"faults? (?:that )?stands?|(?:clause|law|promise)s? stands?", "holds"),
    (r"(?:body|bodies) that gives? up", "an implementation that always fails"),
    (r"tells", "prints; reports"),
    (r"what (?:it|that|each|a \w+) takes", "cost"),
    (r"(?:text )?that is read back", "round trip"),
    (r"of the other side", "the corresponding tree"),
)]


def private_words(_, document, __):
    """No document but the glossary has a phrase that only this repository has; `code` may."""
    if document.path == GLOSSARY:
        return
    for number, line in document.lines:
        plain = re.sub(r"<[^>]*>", " ", CODE.sub(" ", LINK.sub(" ", line)))
        for private, field in PRIVATE:
            for match in private.finditer(plain):
                yield number, "\"%s\": the field says \"%s\" (%s)" % (match.group(0), field, GLOSSARY)


# ---- length

MOST_WORDS = {"README.md": 1100}
MOST_IN_ALL = 54000


def lengths(documents):
    count = {path: len(document.text.split()) for path, document in documents.items()}
    for path, most in MOST_WORDS.items():
        if count.get(path, 0) > most:
            yield path, 1, "%d words, and it is to have at most %d" % (count[path], most)
    if sum(count.values()) > MOST_IN_ALL:
        yield max(count, key=count.get), 1, "all documents have %d words, and are to have at most %d" % (sum(count.values()), MOST_IN_ALL)
