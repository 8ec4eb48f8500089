"""What the package has, and how its archive is written; a part of tools/package."""
import ast
import calendar
import gzip
import io
import os
import re
import subprocess
import tarfile
import time

from package_crates import ROOT
from versions import version_line

# The tools that users call. What they import is found.
TOOLS = ("lnorm", "tree", "schema", "conflicts", "lexplain")
FOLDERS = ("docs", "examples")
FILES = ("README.md", "CHANGELOG.md", "LICENSE", "include/lnorm.h")
PROGRAM, PLAIN = 0o755, 0o644


def day():
    """The day of the newest changes."""
    with open(os.path.join(ROOT, "CHANGELOG.md"), encoding="utf-8") as file:
        return re.search(r"^## ([0-9]+-[0-9]+-[0-9]+)$", file.read(), re.M).group(1)


def version():
    """The day of the newest changes, and the commit, if this is a checkout."""
    commit = re.search(r"commit (\S+)", version_line(""))
    return "-".join([day().replace("-", "."), *(commit.groups() if commit else ())])


def tracked(folder):
    """The files of a folder that Git knows, or all of them without Git, by their paths from the root."""
    ran = None
    if os.path.exists(os.path.join(ROOT, ".git")):
        ran = subprocess.run(["git", "-C", ROOT, "ls-files", "-z", "--", folder], stdout=subprocess.PIPE, stderr=subprocess.DEVNULL)
    if ran is not None and ran.returncode == 0:
        return [name for name in ran.stdout.decode().split("\0") if name and os.path.isfile(os.path.join(ROOT, name))]
    found = [os.path.join(at, name) for at, _, names in os.walk(os.path.join(ROOT, folder)) for name in names]
    return sorted(os.path.relpath(path, ROOT) for path in found if "/target/" not in path)


def imported(tool):
    """The modules of tools/ that a tool imports at its head, and those that these import."""
    found = [tool]
    for name in found:
        with open(os.path.join(ROOT, "tools", name), encoding="utf-8") as file:
            heads = [node for node in ast.parse(file.read()).body if isinstance(node, (ast.Import, ast.ImportFrom))]
        names = [node.module for node in heads if isinstance(node, ast.ImportFrom)]
        names += [alias.name for node in heads if isinstance(node, ast.Import) for alias in node.names]
        found += [it + ".py" for it in names if os.path.isfile(os.path.join(ROOT, "tools", it + ".py")) and it + ".py" not in found]
    return found


def contents(built):
    """Each file of the package, by its name there: its mode and its bytes. `built` has the paths of what is built, by their names."""
    found = {"VERSION": (PLAIN, ("%s\n%s\n" % (version(), version_line("").partition(": ")[2])).encode())}
    paths = {"install": "tools/package_install", **{name: name for name in FILES}, **built}
    paths.update((name, name) for folder in FOLDERS for name in tracked(folder))
    paths.update(("tools/" + name, "tools/" + name) for tool in TOOLS for name in imported(tool))
    for name, path in paths.items():
        path = os.path.join(ROOT, path)
        if os.path.isfile(path) or name != "LICENSE":
            with open(path, "rb") as file:
                found[name] = PROGRAM if os.access(path, os.X_OK) and not name.startswith("lib/") else PLAIN, file.read()
    return found


def with_paths(found, folders):
    """The files that have the path of a folder of this machine in them."""
    return sorted(name for name, (_, data) in found.items() if any(folder.encode() + b"/" in data for folder in folders))


def archive(found):
    """The bytes of the archive: sorted names, one time, no owner, so that the same files make the same bytes."""
    at = calendar.timegm(time.strptime(day(), "%Y-%m-%d"))
    top, packed = "lalrpop_norm-" + version(), io.BytesIO()
    with gzip.GzipFile(filename="", fileobj=packed, mode="wb", compresslevel=6, mtime=at) as zipped:
        with tarfile.open(fileobj=zipped, mode="w", format=tarfile.GNU_FORMAT) as tar:
            for name in sorted(found):
                mode, data = found[name]
                member = tarfile.TarInfo("%s/%s" % (top, name))
                member.mode, member.size, member.mtime = mode, len(data), at
                tar.addfile(member, io.BytesIO(data))
    return packed.getvalue()
