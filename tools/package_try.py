"""Tries a package: unpacks it, installs it and runs what it installed; a part of tools/package."""
import glob
import io
import json
import os
import shutil
import subprocess
import tarfile
import tempfile

import package_files

PATH = "/usr/bin:/bin"
# Where Debian keeps the packages that Cargo would load.
DEBIAN = "/usr/share/cargo/registry"
FROM_DEBIAN = ["--config", 'source.crates-io.replace-with = "debian"', "--config", 'source.debian.directory = "%s"' % DEBIAN]
WRONG_RULE = (b'"+" <r:Sum>', b'"+" <r:Prod>')


MASK = 'while [ "$1" != -- ]; do mount -t tmpfs none "$1" || exit 1; shift; done; shift; exec "$@"'


def masked(folders):
    """The command that runs another with these folders empty, if `unshare` can do that here; else none."""
    command = ["unshare", "--map-root-user", "--mount", "sh", "-c", MASK, "sh", *folders, "--"]
    try:
        ran = subprocess.run([*command, "true"], stdin=subprocess.DEVNULL, stdout=subprocess.DEVNULL, stderr=subprocess.DEVNULL)
    except OSError:
        return []
    return command if ran.returncode == 0 else []


def read(path):
    with open(path, "rb") as file:
        return file.read()


def json_of(data):
    """The value of a JSON text; None if it is none."""
    try:
        return json.loads(data)
    except ValueError:
        return None


class Trial:
    """An installation, what was tried with it, and how many of these trials passed."""

    def __init__(self, room, before):
        self.room, self.before, self.passed, self.failed, self.skipped = room, before, 0, 0, []
        self.prefix = os.path.join(room, "installed")
        self.share = os.path.join(self.prefix, "share", "lalrpop_norm")
        self.example = os.path.join(self.share, "examples")
        self.work = os.path.join(room, "work")
        os.mkdir(self.work)

    def run(self, words, stdin=b"", **env):
        """Runs a command in an empty environment, in a folder of its own. The names of installed commands have no slash."""
        if "/" not in words[0]:
            words = [os.path.join(self.prefix, "bin", words[0]), *words[1:]]
        env = {"PATH": PATH, "HOME": "/nonexistent", **env}
        return subprocess.run([*self.before, "env", "-i", *("%s=%s" % it for it in env.items()), *words], cwd=self.work, input=stdin,
                              stdout=subprocess.PIPE, stderr=subprocess.PIPE)

    def tell(self, name, is_right, said=None):
        print("%s: %s" % (name, "ok" if is_right else "failed"))
        self.passed, self.failed = self.passed + is_right, self.failed + (not is_right)
        if not is_right and said is not None:
            print((said.stdout + said.stderr).decode(errors="replace")[-2000:])

    def answers(self, name, words, output, status=0, faults=b"", stdin=b""):
        """A command answers this exit status, this output, and a first part of standard error."""
        ran = self.run(words, stdin)
        is_right = (ran.returncode, ran.stdout) == (status, output) and ran.stderr.startswith(faults) and bool(faults) == bool(ran.stderr)
        self.tell(name, is_right, ran)

    # ---- the trials

    def install(self, unpacked, version):
        program = os.path.join(unpacked, "install")
        ran = self.run([program, "--version"])
        self.tell("install --version", ran.returncode == 0 and ran.stdout.startswith(b"lalrpop_norm %s: LALRPOP " % version.encode()), ran)
        ran = self.run([program, "--help"])
        self.tell("install --help", ran.returncode == 0 and b"./install PREFIX" in ran.stdout, ran)
        self.answers("install without PREFIX", [program], b"", 2, b"usage: ./install PREFIX\n")
        staged = os.path.join(self.room, "staged")
        ran = self.run([program, "/usr"], DESTDIR=staged)
        named = ran.stdout.decode().splitlines()
        self.tell("install /usr with DESTDIR", ran.returncode == 0 and staged + "/usr/bin/lnorm" in named
                  and all(os.path.exists(path) and path.startswith(staged) for path in named), ran)
        for name in ("install PREFIX", "install PREFIX once more"):
            ran = self.run([program, self.prefix])
            self.tell(name, ran.returncode == 0 and os.path.isfile(os.path.join(self.prefix, "bin", "lexplain")), ran)
        shutil.rmtree(unpacked)

    def programs(self):
        sums = os.path.join(self.example, "sums")
        for path in sorted(glob.glob(os.path.join(self.example, "*.json"))):
            self.answers("lnorm < %s" % os.path.basename(path), ["lnorm"], read(path[:-len("json")] + "expected"), stdin=read(path))
        self.answers("lexplain explain sums.json", ["lexplain", "explain", sums + ".json"], read(sums + ".written.jsonl"),
                     stdin=read(sums + ".derivation.jsonl"))
        ran = self.run(["lexplain", "grammar", sums + ".json"])
        self.tell("lexplain grammar sums.json", ran.returncode == 0 and "nonterminals" in (json_of(ran.stdout) or {}).get("grammar", {}), ran)
        self.answers("lnorm-schema --lowered of that", ["lnorm-schema", "--lowered", "-"], b"-: ok\n", stdin=ran.stdout)

    def tools(self):
        sums = os.path.join(self.example, "sums")
        for tool in ("lower", "tree", "schema", "conflicts", "explain"):
            ran = self.run(["lnorm-" + tool, "--version"])
            self.tell("lnorm-%s --version" % tool, ran.returncode == 0 and b"LALRPOP " in ran.stdout and b", forms " in ran.stdout, ran)
        self.answers("lnorm-lower sums.lalrpop", ["lnorm-lower", sums + ".lalrpop"], read(sums + ".expected"))
        ran = self.run(["lnorm-lower", sums + ".lalrpop", "--json"])
        self.tell("lnorm-lower --json", ran.returncode == 0 and (json_of(ran.stdout) or {}).get("status") == 0, ran)
        wrong = os.path.join(self.work, "wrong.lalrpop")
        with open(wrong, "wb") as file:
            file.write(read(sums + ".lalrpop").replace(*WRONG_RULE))
        self.answers("lnorm-lower of a fault", ["lnorm-lower", wrong], b"", 1, wrong.encode() + b":20:20: F27: ")
        ran = self.run(["lnorm-tree", sums + ".lalrpop"])
        self.tell("lnorm-tree sums.lalrpop", ran.returncode == 0 and json_of(ran.stdout) == json.loads(read(sums + ".json")), ran)
        self.answers("lnorm-schema sums.json", ["lnorm-schema", sums + ".json"], sums.encode() + b".json: ok\n")

    def c(self):
        program, sums = os.path.join(self.work, "normalize"), os.path.join(self.example, "sums")
        ran = self.run(["/usr/bin/env", "cc", "-I" + os.path.join(self.prefix, "include"), os.path.join(self.example, "c", "normalize.c"),
                        "-L" + os.path.join(self.prefix, "lib"), "-llnorm_c", "-o", program])
        self.tell("examples/c: built", ran.returncode == 0, ran)
        if ran.returncode == 0:
            self.answers("examples/c sums.json", [program, sums + ".json"], read(sums + ".expected"))

    def rust(self, cargo):
        """Cargo may be rustup's, which looks for its toolchains at the caller's."""
        home = os.path.expanduser("~")
        env = {name: os.environ.get(name, os.path.join(home, folder)) for name, folder in (("RUSTUP_HOME", ".rustup"), ("CARGO_HOME", ".cargo"))}
        env = {name: folder for name, folder in env.items() if os.path.isdir(folder)}
        env["PATH"] = "%s:%s" % (os.path.dirname(cargo), PATH)
        sums = os.path.join(self.example, "sums")
        command = [cargo, "run", "--quiet", "--offline", "--manifest-path", os.path.join(self.example, "rust", "Cargo.toml"), "--bin", "lnorm"]
        command += FROM_DEBIAN if os.path.isdir(DEBIAN) else []
        ran = self.run([*command, "--", sums + ".json"], CARGO_TARGET_DIR=os.path.join(self.work, "target"), **env)
        if b"no matching package" in ran.stderr:
            self.skipped.append("Rust (Cargo has not the packages that examples/rust can use)")
            return
        lines = [line.strip() for line in ran.stdout.splitlines()]
        wanted = [line for line in read(sums + ".expected").splitlines() if line.endswith(b");")]
        self.tell("examples/rust sums.json", ran.returncode == 0 and all(line in lines for line in wanted), ran)

    def callers(self):
        """The examples in C and Rust, where they can be built."""
        if not os.path.isfile(os.path.join(self.prefix, "lib", "liblnorm_c.a")):
            self.skipped.append("C and Rust (tools/library made no library)")
            return
        if shutil.which("cc", path=PATH):
            self.c()
        else:
            self.skipped.append("C (there is no `cc` in %s)" % PATH)
        cargo = shutil.which("cargo")
        if cargo:
            self.rust(cargo)
        else:
            self.skipped.append("Rust (there is no `cargo`)")


def trial(found, folders):
    """Makes a package of these files, and tries it; the folders are those of the machine that an installation must not need."""
    with tempfile.TemporaryDirectory(prefix="lnorm-package-") as room:
        folders = [folder for folder in folders if not os.path.realpath(room).startswith(folder + "/")]
        installed = Trial(room, masked(folders))
        print("tried with an empty environment" + (", and nothing in %s" % " and ".join(folders) if installed.before and folders else ""))
        packed = package_files.archive(found)
        installed.tell("the same bytes twice", packed == package_files.archive(dict(reversed(list(found.items())))))
        with tarfile.open(fileobj=io.BytesIO(packed)) as tar:
            tar.extractall(room)
        version = package_files.version()
        installed.install(os.path.join(room, "lalrpop_norm-" + version), version)
        installed.programs()
        installed.tools()
        installed.callers()
    said = "; skipped: " + ", ".join(installed.skipped) if installed.skipped and not installed.failed else ""
    print("%d passed, %d failed%s" % (installed.passed, installed.failed, said))
    return 1 if installed.failed else 0
