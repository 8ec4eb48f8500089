"""At what pace a measured run of the gate went, beside the table of docs/work/GATE.md: crates that did not change are the measure."""
import collections
import contextlib
import os
import re
import subprocess
import tempfile
import threading
import time

from gate_tables import RECORD, ROOT, libraries, note, page, recorded, records

COMMIT = re.compile(r"Measured on [\d-]+, of (\w+)\.")
# What the proof of a crate rests on, beside the libraries below it.
PARTS = ("src", "specs", "proofs")
# A crate is proved again if it takes no more seconds in the table, and so many seconds after the last one.
SHORT = 70
PAUSE = 60

Compared = collections.namedtuple("Compared", "commit changed same new samples times")


def without_comments(text, path):
    """The lines of a file that are no comment by themselves."""
    sign = "--" if path.endswith(".antt") else "//"
    return [line for line in text.splitlines() if line.strip() and not line.lstrip().startswith(sign)]


def is_changed(commit, path):
    """Whether a file of the working tree differs from that of a commit by more than comments."""
    ran = subprocess.run(["git", "show", f"{commit}:{path}"], cwd=ROOT, capture_output=True, text=True)
    here = os.path.join(ROOT, path)
    if ran.returncode or not os.path.exists(here):
        return True
    with open(here, encoding="utf-8") as file:
        return without_comments(file.read(), path) != without_comments(ran.stdout, path)


def changed_since(commit, crates):
    """The crates whose proof is that of other files than those of a commit, apart from comments, or None where git can't tell."""
    ran = subprocess.run(["git", "diff", "--name-only", "--no-renames", commit, "--", "crates"], cwd=ROOT, capture_output=True, text=True)
    if ran.returncode:
        return None
    files = [(line.split("/"), line) for line in ran.stdout.splitlines()]
    return {parts[1] for parts, path in files if parts[1] in crates and parts[2] in PARTS and is_changed(commit, path)}


def unchanged():
    """The seconds in the table of each crate that is there and did not change since, with what `changed_since` says, and the commit."""
    crates, old, commit = libraries(), recorded("proof"), COMMIT.search(page())
    changed = changed_since(commit[1], crates) if commit else None
    if changed is None:
        return {}, set(), ""
    return {crate: old[crate] for crate in crates if crate not in changed and old.get(crate)}, changed, commit[1]


def compared(rows):
    """A run beside the recorded one: the commit of the table, the crates that changed since and those that did not, the seconds of each
    proof, how many further ones there are, and how many times as long as in the table the proofs of unchanged crates took; None without a
    run that ended, a table, its commit, or such a crate."""
    old, changed, commit = unchanged()
    new = {crate: sum(row["seconds"] for row in rows if row["crate"] == crate and row["kind"] == "proof") for crate in libraries()}
    same = [crate for crate in old if new[crate]]
    if not any(row["kind"] == "whole" for row in rows) or not same:
        return None
    taken = [row for row in rows if row["crate"] in same and row["kind"] in ("proof", "pace")]
    times = sum(row["seconds"] for row in taken) / sum(old[row["crate"]] for row in taken)
    return Compared(commit, changed, same, new, sum(row["kind"] == "pace" for row in taken), times)


def at_pace(rows, times):
    """The rows of a run as they would be where the table was made."""
    return [{**row, "wall": row["wall"] / times, "seconds": row["seconds"] / times,
             "functions": [[name, seconds / times] for name, seconds in row["functions"]]} for row in rows]


# ---- the pace through the run

def proved_again(rattle, row, room, ended):
    """The row of one more proof of a crate, whose result is thrown away; None if the run ends before it."""
    words = [*row["words"]]
    words[words.index("-o") + 1] = os.path.join(room, row["crate"] + ".rlib")
    begun = time.time()
    ran = subprocess.Popen([rattle, *words], cwd=row["folder"], stdout=subprocess.DEVNULL, stderr=subprocess.DEVNULL)
    done, status, used = os.wait4(ran.pid, os.WNOHANG)
    while not done:
        if ended.wait(1):
            ran.kill()
        done, status, used = os.wait4(ran.pid, os.WNOHANG)
    ran.returncode = os.waitstatus_to_exitcode(status)
    if ran.returncode:
        return None
    return {"crate": row["crate"], "kind": "pace", "edit": "", "begun": begun, "wall": time.time() - begun, "seconds": used.ru_utime + used.ru_stime,
            "kilobytes": used.ru_maxrss, "status": 0, "functions": []}


def sample(rattle, ended):
    """Until the run ends, proves small crates again that did not change since the table, one after another."""
    old, turn = unchanged()[0], 0
    while not ended.wait(PAUSE):
        known = [row for row in records() if row["kind"] == "proof" and row["status"] == 0 and 0 < old.get(row["crate"], 0) <= SHORT]
        if not known:
            continue
        with tempfile.TemporaryDirectory(prefix="gate-pace-") as room:
            said = proved_again(rattle, known[turn % len(known)], room, ended)
        turn += 1
        if said:
            note(RECORD, said)


@contextlib.contextmanager
def sampling(rattle):
    """Samples the pace as long as what is inside goes on."""
    ended = threading.Event()
    thread = threading.Thread(target=sample, args=(rattle, ended))
    thread.start()
    try:
        yield
    finally:
        ended.set()
        thread.join()
