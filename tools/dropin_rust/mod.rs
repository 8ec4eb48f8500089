//! Normalization by another program: a module that `tools/dropin` adds to a copy of LALRPOP 0.19.8.
//!
//! The environment variable `LALRPOP_NORMALIZER` has the path of `lexplain`. If it is set, LALRPOP's parse tree goes to `lexplain grammar -`
//! as JSON, and the lowered grammar that comes back becomes a value of LALRPOP's own types. `LALRPOP_NORMALIZER_KEEP` names a folder that
//! keeps both texts.

mod lowered;
mod lowered_types;
mod tree;
mod tree_types;
mod values;

use self::lowered::lowered_grammar;
use self::tree::grammar_json;
use super::{NormError, NormResult};
use crate::grammar::parse_tree::{Grammar, Span};
use crate::grammar::repr;
use crate::session::Session;
use serde_json::Value;
use std::env;
use std::ffi::OsString;
use std::fs;
use std::io::Write;
use std::path::Path;
use std::process::{Command, Output, Stdio};
use std::thread;

/// The program, if one is named.
pub fn program() -> Option<OsString> {
    env::var_os("LALRPOP_NORMALIZER")
}

/// Whether LALRPOP's own passes lower as those of 0.23.1, where both differ: whether `LALRPOP_AS_0_23_1` is set.
pub fn lowers_as_0_23_1() -> bool {
    env::var_os("LALRPOP_AS_0_23_1").is_some()
}

/// Writes a lowered grammar into the file that `LALRPOP_LOWERED` names, if it is set: what `Debug` prints, and the spans of productions, which it
/// does not.
pub fn write_lowered(grammar: &repr::Grammar) {
    if let Some(file) = env::var_os("LALRPOP_LOWERED") {
        let productions = grammar.nonterminals.values().flat_map(|data| &data.productions);
        let spans: Vec<_> = productions.map(|production| production.span).collect();
        fs::write(&file, format!("{:#?}\n{:?}\n", grammar, spans))
            .unwrap_or_else(|error| panic!("{:?} can't be written: {}", file, error));
    }
}

/// The lowered grammar of a tree, or its fault, as the program answers.
pub fn lower(program: &OsString, session: &Session, grammar: &Grammar) -> NormResult<repr::Grammar> {
    let tree = grammar_json(grammar).to_string();
    let output = answer(program, session, tree.clone());
    if let Some(folder) = env::var_os("LALRPOP_NORMALIZER_KEEP") {
        keep(Path::new(&folder), &tree, &output.stdout);
    }
    if !output.status.success() {
        return Err(fault(&String::from_utf8_lossy(&output.stderr)));
    }
    match serde_json::from_slice::<Value>(&output.stdout) {
        Ok(whole) => lowered_grammar(&whole["grammar"], token_span(grammar)),
        Err(error) => panic!("the normalizer printed no JSON: {}", error),
    }
}

/// What the program answers to a tree, with the features of the session.
fn answer(program: &OsString, session: &Session, tree: String) -> Output {
    let mut command = Command::new(program);
    command.args(["grammar", "-"]);
    for feature in session.features.iter().flatten() {
        command.arg("--feature").arg(feature);
    }
    command
        .stdin(Stdio::piped())
        .stdout(Stdio::piped())
        .stderr(Stdio::piped());
    let mut child = match command.spawn() {
        Ok(child) => child,
        Err(error) => panic!("the normalizer {:?} can't be run: {}", program, error),
    };
    let mut input = child.stdin.take().expect("standard input is a pipe");
    // If the program ends before it has read all, its exit status says why.
    let writer = thread::spawn(move || input.write_all(tree.as_bytes()));
    let output = child.wait_with_output().expect("the normalizer's output can be read");
    let _ = writer.join();
    output
}

fn keep(folder: &Path, tree: &str, lowered: &[u8]) {
    fs::create_dir_all(folder)
        .and_then(|()| fs::write(folder.join("tree.json"), tree))
        .and_then(|()| fs::write(folder.join("lowered.json"), lowered))
        .unwrap_or_else(|error| panic!("{} can't be written: {}", folder.display(), error));
}

/// The fault of a line as `F27 301..302: message`.
fn fault(line: &str) -> NormError {
    match fault_parts(line.trim_end()) {
        Some((span, message)) => NormError { message, span },
        None => panic!("the normalizer failed: {}", line),
    }
}

fn fault_parts(line: &str) -> Option<(Span, String)> {
    let (span, message) = line.split_once(' ')?.1.split_once(": ")?;
    let (from, to) = span.split_once("..")?;
    Some((Span(from.parse().ok()?, to.parse().ok()?), message.to_string()))
}

/// A field of 0.19.8's lowered grammar that nothing reads, and 0.23.1 does not have.
fn token_span(grammar: &Grammar) -> Span {
    grammar.enum_token().map_or(grammar.span, |token| token.type_span)
}
