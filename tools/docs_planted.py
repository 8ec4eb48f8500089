"""Errors that tools/docs is to find: `tools/docs --planted` plants each into the documents, by itself, and checks that it is found."""
import re

from docs_text import Document


def more(match):
    """The number that the pattern's first group has, and one more."""
    digits = match.group(1).replace(",", "")
    return match.group(0).replace(match.group(1), format(int(digits) + 1, ",") if "," in match.group(1) else str(int(digits) + 1), 1)


def without_last_letter(match):
    return match.group(0).replace(match.group(1), match.group(1)[:-1], 1)


# What is wrong, in which document, what is looked for there (its first occurrence), and what comes in its place.
PLANTED = (
    ("the count of mutants", "README.md", r"(\d+) mutants", more),
    ("the count of further mutants", "README.md", r"(\d+) further mutants", more),
    ("the count of test cases", "README.md", r"(\d[\d,]+) test cases", more),
    ("minutes of a build", "README.md", r"below: \d+ crates, (\d+) minutes", more),
    ("a production of the answer", "README.md", r"Sum = Sum2 => ActionFn\((\d+)\)", more),
    ("a contract clause", "README.md", r"`normalize\.(\w+)`", without_last_letter),
    ("a word of a rule's file", "docs/language/RULES.md", r": (\w{6,})`", without_last_letter),
    ("the name of a fault", "docs/use/FAULTS.md", r"`(NamedInTimes)`", without_last_letter),
    ("a fault that the pass does not make", "crates/lalrpop_norm_macro_expand/README.md", r"F33 to F(37)", more),
    ("the lines of a file", "docs/language/READING.md", r"\| Faithful \| (\d+)", more),
    ("the lines of a file, in a sentence", "docs/language/READING.md", r"[A-Z]\w+ \((\d+) lines\)", more),
    ("the production of a node", "docs/language/READING.md", r"action \d+ +star_some_pair: production (\d)", more),
    ("the action of a node", "docs/language/READING.md", r"action (\d+) +plus_more_pair", more),
    ("minutes of the whole gate", "README.md", r"whole gate takes (\d+) minutes", more),
    ("a price", "docs/work/CHANGING.md", r"and above: \d+ crates, ([\d,]+)0 seconds", more),
    ("a mutant of a crate", "crates/lalrpop_norm_tyinfer/README.md", r"`must-fail/` has (?:\w+) mutants:?[^`]*`(\w+)`", without_last_letter),
    ("a path", "docs/work/ARCHITECTURE.md", r"`(tools/docs)`", without_last_letter),
    ("a private phrase", "docs/use/CALLS.md", r"out of (memory)", lambda match: "want of memory"),
)


def planted(document, pattern, change):
    """The document with the first occurrence of a pattern changed, or None where there is none."""
    text, count = re.subn(pattern, change, document.text, count=1)
    return Document(document.path, text) if count else None


def report(documents, findings):
    """Plants each error; `findings` gives what is wrong in one document."""
    lost = []
    for name, path, pattern, change in PLANTED:
        changed = planted(documents[path], pattern, change)
        if changed is None:
            lost.append("%s: %s has nothing where it could be planted" % (name, path))
        elif not set(findings(changed)) - set(findings(documents[path])):
            lost.append("%s: planted in %s, and not found" % (name, path))
    for line in lost:
        print(line)
    print("tools/docs: %d of %d planted errors are found" % (len(PLANTED) - len(lost), len(PLANTED)))
    return 1 if lost else 0
