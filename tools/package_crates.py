"""The crates below one, and the files that these are made of; a part of tools/library and tools/package."""
import hashlib
import os

ROOT = os.path.dirname(os.path.dirname(os.path.realpath(__file__)))
PARTS = ("src", "specs", "proofs")


def rows(root=ROOT):
    """The lines of crates.txt: the crate's name, and its line with the libraries that it lists."""
    found = {}
    with open(os.path.join(root, "crates.txt"), encoding="utf-8") as file:
        for line in file:
            head, colon, libraries = line.partition(":")
            if colon and not line.startswith("#"):
                found[head.split()[0]] = line, libraries.split()
    return found


def below(crate, root=ROOT):
    """The crates of the repository that are below this one, in the order of crates.txt."""
    listed, found = rows(root), [crate]
    for name in found:
        found += [it for it in listed[name][1] if it in listed and it not in found]
    return [name for name in listed if name in found[1:]]


def files_of(crate, root=ROOT):
    """The files that a proof of the crate reads, sorted, by their paths from the root."""
    top = os.path.join(root, "crates", crate)
    found = [os.path.join(at, name) for part in PARTS for at, _, names in os.walk(os.path.join(top, part)) for name in names]
    return sorted(os.path.relpath(path, root) for path in found)


def sum_of(crate, root=ROOT):
    """The checksum of the lines and files of a crate and of those below it."""
    total, listed = hashlib.sha256(), rows(root)
    for name in [*below(crate, root), crate]:
        total.update(listed[name][0].encode())
        for path in files_of(name, root):
            with open(os.path.join(root, path), "rb") as file:
                data = file.read()
            total.update(b"%s\0%d\0" % (path.encode(), len(data)) + data)
    return total.hexdigest()


def is_older(program, crate, root=ROOT):
    """Whether a file that a program is made of changed after the program was built."""
    built = os.stat(program).st_mtime
    return any(os.stat(os.path.join(root, path)).st_mtime > built for name in [*below(crate, root), crate] for path in files_of(name, root))
