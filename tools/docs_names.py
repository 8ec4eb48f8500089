"""What tools/docs checks of names: links, paths, words beside files, definitions, test cases, clauses, crates."""
import os
import re

from docs_facts import ANY_NAME, EDITS, PREFIX, has_word, read_once
from docs_text import CODE, ENDINGS, LINK, PARTS, TOPS, is_path

# Words that have the form of a path, a clause or a tree and are none: the word, and what it is.
EXCUSED = {
    "conversions.contains_key": "a call of LALRPOP's",
}
WORDS_BEHIND = re.compile(r"([\w/]+): ([\w.:-]+(?:, [\w.:-]+)*)")


# ---- links and paths

def links(facts, document, documents):
    for number, line in document.lines:
        for target in LINK.findall(CODE.sub(lambda code: " " * len(code.group(0)) if "](" in code.group(0) else code.group(0), line)):
            if re.match(r"[a-z]+:", target):
                continue
            path, _, anchor = target.partition("#")
            at = os.path.normpath(os.path.join(os.path.dirname(document.path), path)) if path else document.path
            if not facts.exists(at):
                yield number, "the link %s leads nowhere" % target
            elif anchor and at in documents and anchor not in documents[at].anchors():
                yield number, "%s has no heading #%s" % (at, anchor)


def paths(facts, document, _):
    for number, line in document.lines:
        named = [word for code in CODE.findall(line) if not WORDS_BEHIND.fullmatch(code) for word in code.split()]
        named += re.findall(r"(?<![\w/.`(])((?:%s)/[\w./*-]+[\w*])" % "|".join(map(re.escape, TOPS)), CODE.sub(" ", LINK.sub(" ", line)))
        for word in named:
            word = word.rstrip(",;:)").split("#")[0]
            if word in EXCUSED or word.rstrip("/") in PARTS or not (is_path(word) or is_short(facts, word)):
                continue
            if "/" not in word and word in facts.by_name or "/" in word and facts.resolve(word, document.path):
                continue
            if word.split("/")[0] in PARTS and any(facts.resolve(word, "crates/%s/README.md" % crate) for crate in near(facts, document, number)):
                continue
            yield number, "there is no %s" % word


def near(facts, document, number):
    """The crates that a line names, or the heading above it; all, where there are none."""
    named = []
    for at, line in document.lines:
        if at == number or at < number and line.startswith("## "):
            found = [crate for crate in map(facts.crate_named, CODE.findall(line)) if crate]
            named = named + found if at == number else found
    return named or facts.crates


def is_short(facts, word):
    """Whether a word names a file as CRATE/FILE."""
    head, _, rest = word.partition("/")
    return bool(rest) and not rest.isupper() and facts.crate_named(head) is not None and re.fullmatch(r"[\w./*-]+", rest) is not None


# ---- words beside files and crates

BESIDE = re.compile(r"((?:`[^`]+`(?:, | and |, and | or |; )?)+) in `([^`]+)`")
OF_CRATE = re.compile(r"((?:`[^`]+`(?:, | and |, and | or )?)+) of `(\w+)`")


def last_part(word):
    """What is looked for of a word: the last part of its path, without its arguments."""
    return re.split(r"::|\.", re.sub(r"\(.*|<.*", "", word))[-1]


def words(facts, document, _):
    section = []
    for number, line in document.lines:
        if line.startswith(("#", "Crates: ")):
            section = [crate for crate in map(facts.crate_named, CODE.findall(line)) if crate] if line[0] == "C" else []
        yield from ((number, what) for what in words_behind(facts, document, line, section))
        for group, file in BESIDE.findall(line):
            found = [path for path in facts.resolve(file, document.path) if path in facts.files]
            if not (is_path(file) or is_short(facts, file)) or not found:
                continue
            text = "\n".join(map(read_once, found))
            for word in CODE.findall(group):
                if re.fullmatch(r"[\w:.<>-]+", word) and not has_word(text, last_part(word)):
                    yield number, "`%s` does not stand in %s" % (word, file)
        for group, name in OF_CRATE.findall(line):
            crate = facts.crate_named(name)
            if crate is None:
                continue
            for word in CODE.findall(group):
                if re.fullmatch(r"[A-Za-z_][\w:]*", word) and not facts.crate_named(word) and last_part(word) \
                        and not any(has_word(read_once(path), last_part(word)) or os.path.basename(path) == last_part(word) + ".antt"
                                    for path in facts.files_of(crate)):
                    yield number, "`%s` does not stand in %s" % (word, crate)


def words_behind(facts, document, line, section):
    """Words behind the file that they stand in: `CRATE/FILE: a, b`; in RULES.md also `FILE: a`, of the row's crate or the section's."""
    crate = None
    for code in CODE.findall(line):
        match = WORDS_BEHIND.fullmatch(code)
        place = match and match.group(1)
        head, _, rest = (place or "").partition("/")
        in_rules = os.path.basename(document.path) == "RULES.md"
        if not match or place.isupper() or not in_rules and not (rest and facts.crate_named(head)):
            continue
        found = []
        for named in ([[crate]] if crate else []) + [section]:
            found = found or [path for name in named for path in facts.files_of(name) if re.search(r"/%s\.(rt|antt)$" % re.escape(place), path)]
        if not found and facts.crate_named(head):
            crate = facts.crate_named(head)
            found = [path for path in facts.files_of(crate) if re.search(r"/%s\.(rt|antt)$" % re.escape(rest), path)] if rest \
                else [path for path in facts.files_of(crate) if re.search(r"/%s\.(rt|antt)$" % re.escape(head), path)] or facts.files_of(crate)
        if not found:
            yield "there is no %s%s" % (place, " of %s" % crate if crate else "")
        text = "\n".join(map(read_once, found))
        for word in match.group(2).split(", "):
            if found and not has_word(text, last_part(word)):
                yield "`%s` does not stand in %s" % (word, place)


def definitions(facts, document, _):
    """Tables with the columns Name and File: the files are those of the crates that the heading above names, or of any."""
    heading = {}
    crates = []
    for number, line in document.lines:
        if line.startswith("## "):
            crates = [crate for crate in map(facts.crate_named, CODE.findall(line)) if crate]
        heading[number] = crates
    for titles, rows in document.tables():
        if "Name" not in titles or "File" not in titles:
            continue
        for number, row in rows:
            if len(row) != len(titles):
                yield number, "this row has %d cells, and the table %d columns" % (len(row), len(titles))
                continue
            named = [name.strip("` ") for name in re.split(r"[,;]| and ", row[titles.index("File")]) if re.fullmatch(r"`?([a-z_]+/)?[A-Z]\w*`?", name.strip())]
            found, lost = [], []
            for name in named:
                here = [path for path in facts.by_name.get(name.split("/")[-1] + ".antt", ()) if "/specs/" in path]
                if "/" in name:
                    here = facts.resolve(name, document.path)
                elif heading[number]:
                    here = [path for path in here if path.split("/")[1] in heading[number]] or here
                found += here
                lost += [] if here else [name]
            for name in lost:
                yield number, "there is no file %s.antt in specs/" % name
            text = "\n".join(map(read_once, found))
            for word in CODE.findall(row[titles.index("Name")]):
                if found and not lost and re.fullmatch(r"[\w.-]+", word) and not has_word(text, last_part(word)):
                    yield number, "`%s` does not stand in %s" % (word, ", ".join(named))


# ---- runs and clauses

def runs(facts, document, _):
    for number, line in document.lines:
        for code in CODE.findall(line):
            match = re.fullmatch(r"([a-z0-9-]+(?:, [a-z0-9-]+)*) (\*?[a-z_,]+)((?: .+)?)", code)
            is_run = match and (match.group(2) in facts.calls or match.group(2)[0] == "*" or "-" in match.group(1)
                                and set(match.group(1).split(", ")) <= facts.trees)
            if is_run and match.group(1) not in ("lnorm", "lexplain", "rt"):
                for tree in match.group(1).split(", ") if ".." not in code.split() else ():
                    if not facts.is_run(tree, match.group(2), match.group(3)):
                        yield number, "`%s %s%s` is no line of crates/cases/stdin" % (tree, match.group(2), match.group(3))
            elif re.fullmatch(r"[a-z0-9]+(-[a-z0-9]+)+", code) and code not in facts.trees and code not in EXCUSED:
                if code not in facts.crates and code not in EDITS and not facts.by_name.get(code):
                    yield number, "`%s` is no tree of crates/cases/data" % code


def clauses(facts, document, _):
    for number, line in document.lines:
        call = None
        for code in CODE.findall(line):
            short = re.fullmatch(r"\.(\w+)", code)
            full = re.fullmatch(r"((?:[\w<>]+::)*)(\w+)\.(\w+)", code)
            bare = re.fullmatch(r"(?:[\w<>]+::)*(\w+)(?:\(.*\))?", code)
            if code in EXCUSED or code.endswith(ENDINGS) or "." + code.rpartition(".")[2] in ENDINGS:
                continue
            if short and call and short.group(1) not in facts.clauses[call] and short.group(1) not in facts.functions:
                yield number, "`%s` has no clause `%s`" % (call, short.group(1))
            elif full and (full.group(1) or full.group(2)[0].islower()):
                call = full.group(2)
                if call not in facts.functions:
                    yield number, "`%s`: there is no function `%s`" % (code, call)
                elif full.group(3) not in facts.clauses[call]:
                    yield number, "`%s` has no clause `%s`" % (call, full.group(3))
            elif full:
                files = [path for path in facts.by_name.get(full.group(2) + ".antt", ()) if path.endswith(".antt")]
                if files and not any(has_word(read_once(path), full.group(3)) for path in files):
                    yield number, "`%s` does not stand in %s.antt" % (full.group(3), full.group(2))
            elif bare and bare.group(1) in facts.functions:
                call = bare.group(1)


def crate_words(facts, document, _):
    for number, line in document.lines:
        for word in re.findall(r"\b%s\w+" % PREFIX, line):
            if word not in facts.crates and word not in facts.code_words() and word not in EXCUSED and not word[len(PREFIX):].isupper():
                yield number, "there is no crate %s" % word
