"""What the modules of a crate take in a check, by the times of the files that it leaves in an empty folder of kept work."""
import collections
import os
import re

ENDING = re.compile(r"(\.decls)?\.oantt$")


def files_in(folder):
    """The files of modules below the folder: when each was written, and its name, in the order of writing."""
    return sorted((os.stat(os.path.join(at, name)).st_mtime, name) for at, _, names in os.walk(folder) for name in names if ENDING.search(name))


def modules_in(folder, crate):
    """The seconds of each module, from the file before its own to its own. A name that is too long for a file has a sum in its place."""
    files, seconds = files_in(folder), collections.Counter()
    for (before, _), (at, name) in zip(files, files[1:]):
        seconds[ENDING.sub("", name).removeprefix(f"Rattle-{crate}-")] += at - before
    return seconds


def kind_of(module):
    """What a module is: that which rattle makes of a function's code (`Lts`, ..), its proof, or a file of specs/ or proofs/."""
    last = module.rpartition(".")[2].partition("-")[0]
    if re.fullmatch(r"[0-9a-f]{64}", last):
        return "of a long name"
    made = ("Lts", "Proof", "Tie", "Layout", "Named", "Mir", "Code", "Goals", "Given", "Reads", "Kinds", "View", "Answers", "Statement", "Invariants")
    return last if last in made else "lemmas, definitions, contracts"


def kinds_of(seconds):
    """The seconds of each kind of modules, the dearest first."""
    kinds = collections.Counter()
    for module, took in seconds.items():
        kinds[kind_of(module)] += took
    return kinds.most_common()
