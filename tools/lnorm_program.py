"""The programs that tools/lnorm runs, lnorm and lexplain: the proved one, one that is named, or else one that is compiled without proof.

`rt try` compiles a program without proof, runs it, and keeps nothing. While it runs the program, on some empty inputs, the program is in
the folder of temporary files that `rt try` is given. There a link to it is made, and `rt try` is ended. The program that is kept is
out/unproved/NAME. Beside it a file has the checksum of its sources and the toolchain; if these differ, it is compiled anew.
"""
import hashlib
import os
import shutil
import signal
import subprocess
import sys
import tempfile
import time

ROOT = os.path.dirname(os.path.dirname(os.path.realpath(__file__)))
INPUTS, SECONDS_BETWEEN = 3, 0.002
NO_TREE = 2
# The tool whose lines these are.
TOOL = "tools/" + os.path.basename(os.path.realpath(sys.argv[0]))
HOW_TO_BUILD = TOOL + """: the program is not built, crates/%s/out/%s is not there. `rt ci` leaves it there; to build it alone, once, which
proves all that it stands on and takes half an hour to an hour and a half:
    cd crates/%s && %s"""
COMPILES = TOOL + ": compiling the program without proof; this takes some minutes, once"
IS_OLD = TOOL + ": note: the code of the program has changed since it was built; in crates/%s `rt run` builds it anew"
IS_UNPROVED = TOOL + ": note: made by a program that was compiled without proof: %s"


class Program:
    """A program of the repository: its name, the arguments by which it lowers a tree on standard input, what it says where that is none, the
    command that builds it, and where it is."""

    def __init__(self, name, first, no_tree, made_of, builds):
        self.name, self.first, self.no_tree, self.builds = name, first, no_tree, builds
        self.crate = os.path.join(ROOT, "crates", name)
        # (an installed package has no crates, but a folder bin)
        installed = os.path.join(ROOT, "bin", name)
        self.proved = installed if os.path.isfile(installed) else os.path.join(self.crate, "out", name)
        self.unproved = os.path.join(ROOT, "out", "unproved", name)
        self.made_of = os.path.join(ROOT, "out", "unproved", made_of)


LNORM = Program("lnorm", [], "lnorm: not a tree\n", "made_of", "rt run < ../../examples/sums.json")
LEXPLAIN = Program("lexplain", ["grammar", "-"], "lexplain: the file is no tree of a grammar\n", "lexplain_made_of",
                   "rt run -- explain ../../examples/sums.json < ../../examples/sums.derivation.jsonl")


class NoProgram(Exception):
    """There is no program to run: why."""


def note(line):
    print(line, file=sys.stderr, flush=True)


# ---- what a program is made of

def source_files(program, root=ROOT):
    """The files that a program is compiled of: crates.txt, and src/ of its crate and of each crate below it."""
    with open(os.path.join(root, "crates.txt"), encoding="utf-8") as file:
        needs = {line.split(":")[0].split()[0]: line.split(":")[1].split() for line in file if ":" in line and line[0] != "#"}
    below = [program.name]
    for crate in below:
        below += [it for it in needs.get(crate, ()) if it in needs and it not in below]
    found = [os.path.join(at, file) for crate in below for at, _, files in os.walk(os.path.join(root, "crates", crate, "src"))
             for file in files]
    return [os.path.join(root, "crates.txt")] + sorted(found)


def is_old(program):
    """Whether the code that the proved program was built of has changed since."""
    try:
        built = os.stat(program.proved).st_mtime
        return any(os.stat(file).st_mtime > built for file in source_files(program)[1:])
    except OSError:
        return False


def sum_of_sources(program, root=ROOT):
    """The checksum of the files that a program is compiled of, names and contents."""
    total = hashlib.sha256()
    for path in source_files(program, root):
        with open(path, "rb") as file:
            data = file.read()
        total.update(b"%s\0%d\0" % (os.path.relpath(path, root).encode(), len(data)) + data)
    return total.hexdigest()


def toolchain():
    """The line of `rt version`, or None if there is no `rt`."""
    if not shutil.which("rt"):
        return None
    return subprocess.run(["rt", "version"], stdin=subprocess.DEVNULL, stdout=subprocess.PIPE, stderr=subprocess.DEVNULL).stdout.decode().strip()


def is_kept(program):
    """Whether the unproved program is there, compiled of these sources by this toolchain; by any one, if there is no `rt`."""
    try:
        with open(program.made_of, encoding="utf-8") as file:
            sources, kit = file.read().split("\n")[:2]
        return os.path.isfile(program.unproved) and sources == sum_of_sources(program) and toolchain() in (None, kit)
    except (OSError, ValueError):
        return False


# ---- compiling without proof

def program_in(folder):
    """The program that `rt try` is running, by the name that it has below the folder of its temporary files; or None."""
    try:
        rooms = [inner.path for outer in os.scandir(folder) if outer.is_dir() for inner in os.scandir(outer.path)]
    except OSError:
        return None
    # (a folder in which it is linked has a file of this name as well, but has no standard input)
    return next((os.path.join(room, "program") for room in rooms if os.path.isfile(os.path.join(room, "stdin"))
                 and os.path.isfile(os.path.join(room, "program"))), None)


def compile_into(program, room):
    """Compiles a program by `rt try`, and makes a link to it in the folder `room`. What `rt try` said, if there is no program then."""
    temporary, inputs, link = (os.path.join(room, name) for name in ("temporary", "inputs", program.name))
    os.mkdir(temporary)
    os.mkdir(inputs)
    for number in range(INPUTS):
        open(os.path.join(inputs, str(number)), "wb").close()
    with open(os.path.join(room, "said"), "w+b") as said:
        ran = subprocess.Popen(["rt", "try", "--cases", inputs], cwd=program.crate, env={**os.environ, "TMPDIR": temporary},
                               stdin=subprocess.DEVNULL, stdout=subprocess.DEVNULL, stderr=said)
        is_whole = False
        try:
            while ran.poll() is None and not is_whole:
                is_whole = is_linked(temporary, link) and answers(program, link)
                time.sleep(SECONDS_BETWEEN)
        finally:
            ran.terminate()
            ran.wait()
        said.seek(0)
        if is_whole or answers(program, link):
            return None
        return said.read().decode(errors="replace").rstrip() or "`rt try` ended with exit status %d, and said nothing" % ran.returncode


def is_linked(temporary, link):
    """Makes the link if there is none yet; whether there is one. It may be one to a program that is not written to its end."""
    if os.path.exists(link):
        return True
    path = program_in(temporary)
    try:
        if path:
            os.link(path, link)
        return bool(path)
    except OSError:
        return False


def answers(program, path):
    """Whether a program at some path is whole: whether it answers that nothing is no tree."""
    try:
        ran = subprocess.run([path] + program.first, input=b"", stdout=subprocess.PIPE, stderr=subprocess.PIPE)
        return (ran.returncode, ran.stderr) == (NO_TREE, program.no_tree.encode())
    except OSError:
        return False


def compile_unproved(program):
    """Compiles a program without proof, and keeps it."""
    note(HOW_TO_BUILD % (program.name, program.name, program.name, program.builds))
    kit = toolchain()
    if kit is None:
        raise NoProgram("the program is not built, and no `rt` is found that could build it")
    note(COMPILES)
    sources, folder = sum_of_sources(program), os.path.dirname(program.unproved)
    os.makedirs(folder, exist_ok=True)
    # (so that `rt try` is ended, and its folder removed, if this process is told to stop)
    signal.signal(signal.SIGTERM, lambda *_: sys.exit(128 + signal.SIGTERM))
    with tempfile.TemporaryDirectory(dir=folder, prefix="compiling-") as room:
        said = compile_into(program, room)
        if said is not None:
            note(said)
            raise NoProgram("`rt try` left no program that could be run")
        if sum_of_sources(program) != sources:
            raise NoProgram("the code of the program changed while it was compiled")
        if os.path.exists(program.made_of):
            os.remove(program.made_of)
        os.replace(os.path.join(room, program.name), program.unproved)
        with open(os.path.join(room, "made_of"), "w", encoding="utf-8") as file:
            file.write("%s\n%s\n" % (sources, kit))
        os.replace(file.name, program.made_of)


def path_of(program, named):
    """The path of the program to run: the named one, else the proved one, else the one that is compiled without proof."""
    if named:
        return named
    if os.path.isfile(program.proved):
        if is_old(program):
            note(IS_OLD % program.name)
        return program.proved
    if not is_kept(program):
        compile_unproved(program)
    note(IS_UNPROVED % os.path.relpath(program.unproved, ROOT))
    return program.unproved


def run(path, given, data):
    """What the program at a path answers to a tree: its exit status, and what it wrote on its two streams."""
    try:
        # (a name without a slash would be looked for among the system's programs)
        ran = subprocess.run([os.path.abspath(path)] + given, input=data, stdout=subprocess.PIPE, stderr=subprocess.PIPE)
    except OSError as error:
        raise NoProgram("the program can't be run: %s: %s" % (path, error.strerror))
    return ran.returncode, ran.stdout, ran.stderr.decode(errors="replace")
