"""A copy of Debian's LALRPOP 0.19.8 that normalizes by another program; a part of tools/dropin.

The copy has one module more, the files of dropin_rust, and reads three variables of the environment:

- LALRPOP_NORMALIZER names the program lexplain. If it is set, `lexplain grammar` normalizes in place of LALRPOP's own passes.
- LALRPOP_AS_0_23_1 switches on what LALRPOP 0.23.1 lowers otherwise than 0.19.8: terminals are numbered in the order of their conversions;
  `X?` has the type `Option<..>`; `F { <> }` with named symbols is `F { a, b }`; `_` may stand anywhere in a match block, and what it
  stands for has the precedence of its block.
- LALRPOP_LOWERED names a file, for the text of the lowered grammar as Rust's Debug has it, and the spans of its productions.
"""
import os
import shutil

HERE = os.path.dirname(os.path.realpath(__file__))
MODULE = os.path.join(HERE, "dropin_rust")
REGISTRY = "/usr/share/cargo/registry"
SOURCE = os.path.join(REGISTRY, "lalrpop-0.19.8")
GRAMMAR = os.path.join(SOURCE, "src", "parser", "lrgrammar.lalrpop")
NORMALIZER, KEEP, LATER = "LALRPOP_NORMALIZER", "LALRPOP_NORMALIZER_KEEP", "LALRPOP_AS_0_23_1"
LOWERED = "LALRPOP_LOWERED"
IS_LATER = "crate::normalize::outside::lowers_as_0_23_1()"
CONFIG = """\
[source.crates-io]
replace-with = "debian"
[source.debian]
directory = "%s"
[net]
offline = true
""" % REGISTRY

# Each edit: a piece of the file that stands there once, and what stands in its place.
BUILD_EDITS = {
    "Cargo.toml": (
        ("[features]\n", '[dependencies.serde_json]\nversion = "1"\n\n[features]\n'),
        ('[dev-dependencies.rand]\nversion = "0.8"\n', ""),
        ('[dev-dependencies.rand_chacha]\nversion = "0.3.1"\n', ""),
        # (it is built quickly, and not made to be fast)
        ("[lib]\n", "[profile.release.package.lalrpop]\nopt-level = 1\n\n[lib]\n"),
    ),
    "src/lib.rs": (("extern crate regex;\n", "extern crate regex;\nextern crate serde_json;\n"),),
    "src/normalize/mod.rs": (
        # (rustc takes no semicolon there if the macro stands for an expression)
        ("span: $span\n        });\n", "span: $span\n        })\n"),
        ("mod norm_util;\n", "mod norm_util;\n\npub mod outside;\n"),
        ("validate: bool) -> NormResult<r::Grammar> {\n",
         "validate: bool) -> NormResult<r::Grammar> {\n"
         "    if let Some(program) = outside::program() {\n"
         "        return outside::lower(&program, session, &grammar);\n"
         "    }\n"),
        ("lower_helper(session, grammar, validate)?;\n", "lower_helper(session, grammar, validate)?;\n    outside::write_lowered(&grammar);\n"),
    ),
}
LATER_EDITS = {
    "src/normalize/lower/mod.rs": (
        ("all_terminals.sort();\n", "if !%s {\n            all_terminals.sort();\n        }\n" % IS_LATER),
        ('format!("{0}:{0}", &*name.name)',
         'if %s { name.name.to_string() } else { format!("{0}:{0}", &*name.name) }' % IS_LATER),
    ),
    "src/grammar/parse_tree.rs": (
        ("pub fn option() -> Path {\n",
         'pub fn option() -> Path {\n        if %s {\n            return Path::from_id(Atom::from("Option"));\n        }\n' % IS_LATER),
    ),
    "src/normalize/prevalidate/mod.rs": (("if item.is_catch_all()", "if !%s && item.is_catch_all()" % IS_LATER),),
    "src/normalize/token_check/mod.rs": (
        ("    catch_all: bool,\n", "    catch_all: bool,\n    catch_all_block: usize,\n"),
        ("MatchItem::CatchAll(_) => {\n",
         "MatchItem::CatchAll(_) => {\n                            match_block.catch_all_block = precedence;\n"),
        ("precedence: sym.base_precedence(),\n",
         "precedence: sym.base_precedence() + if %s { 2 * self.catch_all_block } else { 0 },\n" % IS_LATER),
    ),
}


class NoPatch(Exception):
    """The sources are not those that the edits are for: why."""


def edited(name, text, edits):
    for old, new in edits:
        if text.count(old) != 1:
            raise NoPatch("%s of LALRPOP has %r %d times, and not once" % (name, old.strip(), text.count(old)))
        text = text.replace(old, new)
    return text


def patched_copy(target):
    """Makes the copy in the folder `target`. A file that is there already and has the right text stays, so that Cargo builds no more."""
    texts = {}
    for folder, _, files in os.walk(os.path.join(SOURCE, "src")):
        for file in files:
            texts[os.path.relpath(os.path.join(folder, file), SOURCE)] = os.path.join(folder, file)
    texts = {name: read(path) for name, path in [("Cargo.toml", os.path.join(SOURCE, "Cargo.toml")), *texts.items()]}
    for name, edits in [*BUILD_EDITS.items(), *LATER_EDITS.items()]:
        texts[name] = edited(name, texts[name], edits)
    for file in os.listdir(MODULE):
        if file.endswith(".rs"):
            texts["src/normalize/outside/" + file] = read(os.path.join(MODULE, file))
    texts[".cargo/config.toml"] = CONFIG
    for name, text in texts.items():
        write(os.path.join(target, name), text)


def copy_with_parser(source, target, parser):
    """Another copy of a patched copy, which reads grammars by a parser of this text."""
    shutil.copytree(source, target, dirs_exist_ok=True, ignore=shutil.ignore_patterns("lrgrammar.rs"))
    write(os.path.join(target, "src", "parser", "lrgrammar.rs"), parser)


def read(path):
    with open(path, encoding="utf-8") as file:
        return file.read()


def write(path, text):
    if os.path.isfile(path) and read(path) == text:
        return
    os.makedirs(os.path.dirname(path), exist_ok=True)
    with open(path, "w", encoding="utf-8") as file:
        file.write(text)
