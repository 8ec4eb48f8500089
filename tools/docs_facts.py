"""What stands in the repository, as tools/docs asks for it: files, words, functions and clauses, runs, edits, crates."""
import collections
import functools
import os
import re
import subprocess

ROOT = os.path.dirname(os.path.dirname(os.path.abspath(__file__)))
EDITS = ("must-fail", "further-edits", "wrong-definitions")
PREFIX = "lalrpop_norm_"
# What stands for any name in a path.
ANY_NAME = re.compile(r"(\*\*|\*|(?<![A-Za-z])(?:NAME|GRAMMAR|CRATE|FILE|DATE|MODULE|FUNCTION|PASS|FEATURE)(?![A-Za-z]))")
UNREAD = {".git", "out", "__pycache__"}


def read(path):
    with open(os.path.join(ROOT, path), encoding="utf-8", errors="replace") as file:
        return file.read()


read_once = functools.lru_cache(maxsize=None)(read)


def has_word(text, word):
    """Whether a word stands in a text by itself."""
    return re.search(r"(?<![\w-])%s(?![\w])" % re.escape(word), text) is not None


class Facts:
    def __init__(self):
        self.files, self.folders = set(), set()
        for folder, folders, files in os.walk(ROOT):
            folders[:] = [name for name in folders if name not in UNREAD]
            at = os.path.relpath(folder, ROOT)
            self.folders.add(at)
            self.files.update(os.path.normpath(os.path.join(at, name)) for name in files)
        self.by_name = collections.defaultdict(list)
        for path in sorted(self.files):
            self.by_name[os.path.basename(path)].append(path)
        self.crates = [line.partition(":")[0].split()[0] for line in read("crates.txt").splitlines() if line.strip() and not line.startswith("#")]
        self.read_runs()
        self.read_edits()
        self.clauses, self.functions = collections.defaultdict(set), collections.defaultdict(set)
        for crate in self.crates:
            self.read_functions(crate)

    def exists(self, path):
        path = os.path.normpath(path)
        return path in self.files or path in self.folders

    # ---- runs

    def read_runs(self):
        lines = [line for line in read("crates/cases/stdin").splitlines() if line.strip() and not line.split()[0].startswith("#")]
        self.runs, self.run_count = set(lines), len(lines)
        self.calls = {line.split()[1] for line in lines if len(line.split()) > 1 and line.split()[1].islower()}
        self.trees = {name[:-len(".json")] for name in self.by_name if name.endswith(".json") and "crates/cases/data/" + name in self.files}

    def is_run(self, tree, call, rest):
        """Whether a line asks this of a tree; `*CALL` is a call with others before it."""
        if call[0] != "*":
            return "%s %s%s" % (tree, call, rest) in self.runs
        line = re.compile(r"%s [a-z_,]+,%s%s$" % (re.escape(tree), re.escape(call[1:]), re.escape(rest)))
        return any(line.match(run) for run in self.runs)

    # ---- edits

    def read_edits(self):
        self.edits = {}
        for path in self.files:
            parts = path.split(os.sep)
            if path.endswith(".edit") and len(parts) == 4 and parts[2] in EDITS:
                self.edits.setdefault((parts[1], parts[2]), set()).add(parts[3][:-len(".edit")])

    def edit_count(self, crate, folder):
        return len(self.edits.get((crate, folder), ()))

    def edits_of_all(self, *folders):
        return sum(len(names) for (_, folder), names in self.edits.items() if folder in folders)

    # ---- functions and their clauses

    def read_functions(self, crate):
        """Notes each function of a crate with the clauses of its contract; a contract stands between the head and the body."""
        for path in sorted(self.files):
            if path.startswith("crates/%s/src/" % crate) and path.endswith(".rt"):
                name = None
                for line in read_once(path).splitlines():
                    line = line.split("//")[0]
                    head = re.search(r"\bfn (\w+)", line)
                    if head:
                        name = head.group(1)
                        self.functions[name].add(crate)
                    for clause in re.findall(r"\b(?:ensures|requires) (\w+) \{", line) if name else ():
                        self.clauses[name].add(clause)

    # ---- paths and crates

    def crate_named(self, word):
        """The crate that a word names, with the prefix or without."""
        for name in (word, PREFIX + word):
            if name in self.crates:
                return name
        return None

    def files_of(self, crate, ending=(".rt", ".antt")):
        return [path for path in self.files if path.startswith("crates/%s/" % crate) and path.endswith(ending)]

    def resolve(self, named, document):
        """The paths that a name may mean in a document: of the root, beside the document, in its crate, or as CRATE/FILE."""
        named = named.rstrip("/") or "."
        found = []
        places = ["", os.path.dirname(document)]
        if document.startswith("crates/"):
            places.append("/".join(document.split("/")[:2]))
        for place in places:
            path = os.path.normpath(os.path.join(place, named))
            if ANY_NAME.search(path):
                parts = ANY_NAME.split(path)
                pattern = re.compile("".join(map(re.escape, parts[:1])) + "".join(
                    (".*" if mark == "**" else "[^/]*") + re.escape(part) for mark, part in zip(parts[1::2], parts[2::2])) + "$")
                found += [other for other in self.files | self.folders if pattern.match(other)]
            elif self.exists(path):
                found.append(path)
        head, _, rest = named.partition("/")
        crate = self.crate_named(head)
        if crate and rest and not found:
            end = re.compile(r"crates/%s/(?:src/|specs/|proofs/)?(?:.*/)?%s(\.rt|\.antt)?$" % (crate, re.escape(rest)))
            found += [path for path in self.files | self.folders if end.match(path)]
        return sorted(set(found))

    def kit(self):
        """The line of `rt version`, or None where there is no rt."""
        try:
            return subprocess.run(["rt", "version"], capture_output=True, text=True, timeout=60).stdout.strip() or None
        except (OSError, subprocess.SubprocessError):
            return None

    def code_words(self):
        """The words of the code and the definitions that begin with the prefix of the crates."""
        if not hasattr(self, "_code_words"):
            self._code_words = {word for path in self.files if path.endswith((".rt", ".antt"))
                                for word in re.findall(r"\b%s\w+" % PREFIX, read_once(path))} - set(self.crates)
        return self._code_words
