"""The line that `--version` prints; a part of tools/lnorm, tools/tree and tools/schema.

There is no release. The line names the LALRPOP that is ported, the version of the forms and the toolchain, as the static library has them
(crates/lnorm_c/src/versions.rt), and the commit if the tools are run in a checkout. A package has them in the second line of its file
VERSION, as they were where tools/package made it.
"""
import os
import re
import subprocess

ROOT = os.path.dirname(os.path.dirname(os.path.realpath(__file__)))
VERSIONS = os.path.join(ROOT, "crates", "lnorm_c", "src", "versions.rt")
LALRPOP = "0.23.1"


def of_library():
    """The version of the forms and the toolchain's line, without the letter of its build; as words, none if the file is not there."""
    try:
        with open(VERSIONS, encoding="utf-8") as file:
            code = file.read()
    except OSError:
        return []
    forms = re.search(r"fn lnorm_form_version\(\).*?\{\s*([0-9]+)\s*\}", code, re.S)
    kit = re.search(r'"(rattle-kit-[0-9]+)[a-z]?( logic \w+)?"', code)
    return (["forms %s" % forms.group(1)] if forms else []) + (["".join(filter(None, kit.groups()))] if kit else [])


def commit():
    """The commit of the checkout, with `-dirty` if files differ from it; none without Git or a checkout."""
    if not os.path.exists(os.path.join(ROOT, ".git")):
        return []
    try:
        command = ["git", "-C", ROOT, "describe", "--always", "--dirty", "--abbrev=12", "--exclude=*"]
        ran = subprocess.run(command, stdout=subprocess.PIPE, stderr=subprocess.DEVNULL)
    except OSError:
        return []
    return ["commit " + ran.stdout.decode().strip()] if ran.returncode == 0 else []


def of_package():
    """The words of a package; none in a checkout."""
    try:
        with open(os.path.join(ROOT, "VERSION"), encoding="utf-8") as file:
            return file.read().splitlines()[1:2]
    except OSError:
        return []


def version_line(tool):
    return "%s: %s" % (tool, ", ".join(of_package() or ["LALRPOP " + LALRPOP] + of_library() + commit()))
