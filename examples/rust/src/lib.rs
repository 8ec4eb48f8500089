//! Safe Rust over the proved normalizer of LALRPOP grammars, which is linked as a static library.
//!
//! | Call | Answer |
//! |---|---|
//! | `grammar`, `grammar_with_origins` | the whole lowered grammar as structs of the module `repr`; with the feature `serde` |
//! | [`whole_json`] | the same as JSON |
//! | [`normalize`] | its productions, types and start symbols, taken from the printed lines |
//! | [`lowered_text`] | these lines |
//! | [`explain`] | back from a derivation tree of the lowered grammar to the grammar as it was written |
//! | [`ambiguous`] | from two derivation trees to two readings in the grammar as it was written |
//!
//! `docs/use/FORMATS.md` has the forms, and what the lines do not show, as which nonterminals are `inline`.
//!
//! Without the feature `serde` no other package is used. With it `serde_json` reads JSON that nests at most 128 deep, which a type does
//! that nests more than some 40 deep; the feature `unbounded_depth` reads any, with a stack that is large enough for the type.

mod calls;
mod fault;
mod lines;
mod names;
#[cfg(feature = "serde")]
mod read;
mod readings;
#[cfg(feature = "serde")]
pub mod repr;

pub use calls::{form_version, toolchain};
pub use fault::Fault;
pub use lines::{Lowered, Production};
#[cfg(feature = "serde")]
pub use read::{grammar, grammar_with_origins};
pub use readings::Readings;

use calls::Status;
use names::Names;

/// A lowered grammar, as far as its lines show it.
///
/// `tree` is a tree in JSON, `limit` how many rounds of expansion may generate nonterminals (200 is LALRPOP's), and `features` are those
/// that are on, for each `cfg` of the grammar.
///
/// # Errors
///
/// The first fault of the grammar; or the text is no tree, a feature holds a zero byte, or an allocation failed; or the lines can't be
/// taken apart, as a name of the tree that stands in them holds one of `,:="()<>[]{}` or a line feed, or is empty, or as both `!` and
/// something named `error` are used: [`Fault::Unclear`]. Ask for the whole grammar then.
pub fn normalize(tree: &str, limit: u16, features: &[&str]) -> Result<Lowered, Fault> {
    Lowered::from_lines(&lowered_text(tree, limit, features)?, &Names::of_tree(tree))
}

/// The lines of a lowered grammar, as the program `lnorm` prints them. The arguments are those of [`normalize`].
///
/// # Errors
///
/// Those of [`normalize`], but that lines can't be taken apart.
pub fn lowered_text(tree: &str, limit: u16, features: &[&str]) -> Result<String, Fault> {
    let words = words_of(limit, features)?;
    answered(calls::run(&words, tree.as_bytes()))
}

/// The whole lowered grammar as JSON, one line with its line feed, as `lexplain grammar` prints it; `with_origins` says whether it has the
/// origins of the actions, as with `--origins`. The other arguments are those of [`normalize`].
///
/// # Errors
///
/// Those of [`lowered_text`].
pub fn whole_json(tree: &str, limit: u16, features: &[&str], with_origins: bool) -> Result<String, Fault> {
    let mut words = words_of(limit, features)?;
    if with_origins {
        words.extend_from_slice(b"--origins\0");
    }
    answered(calls::whole(&words, tree.as_bytes()))
}

/// The lines of the tree of the grammar as it was written that corresponds to a derivation tree of the lowered grammar, before inlining;
/// `lines` are those of the derivation tree. The other arguments are those of [`normalize`].
///
/// # Errors
///
/// The first fault of the grammar or of the derivation tree; or those of [`lowered_text`].
pub fn explain(tree: &str, lines: &str, limit: u16, features: &[&str]) -> Result<String, Fault> {
    let words = words_of(limit, features)?;
    answered(calls::explain(&words, tree.as_bytes(), lines.as_bytes()))
}

/// Two different readings of one sequence of terminals in the grammar as it was written: it is ambiguous at the rule of both roots. `lines`
/// are those of two derivation trees of the lowered grammar, before inlining, one behind the other. The other arguments are those of
/// [`normalize`].
///
/// # Errors
///
/// The first fault of the grammar, of the first tree or of the second; the trees are of two rules (X5), their terminals differ (X6, with the
/// first index), or their written trees are the same (X7); or those of [`lowered_text`].
pub fn ambiguous(tree: &str, lines: &str, limit: u16, features: &[&str]) -> Result<Readings, Fault> {
    let words = words_of(limit, features)?;
    Readings::from_lines(&answered(calls::ambiguous(&words, tree.as_bytes(), lines.as_bytes()))?)
}

/// The arguments of a call, each ended by a zero byte. A feature with a zero byte in it is none.
fn words_of(limit: u16, features: &[&str]) -> Result<Vec<u8>, Fault> {
    let mut words = format!("--limit\0{limit}\0").into_bytes();
    for feature in features {
        if feature.contains('\0') {
            return Err(Fault::NoFeature(feature.to_string()));
        }
        words.extend_from_slice(b"--feature\0");
        words.extend_from_slice(feature.as_bytes());
        words.push(0);
    }
    Ok(words)
}

fn answered((status, output, line): (Status, Vec<u8>, Vec<u8>)) -> Result<String, Fault> {
    let text = |bytes: Vec<u8>| String::from_utf8_lossy(&bytes).into_owned();
    match status {
        Status::Done => Ok(text(output)),
        Status::Fault => Err(Fault::from_line(&text(line))),
        Status::Refused => Err(Fault::Refused(text(line).trim_end().to_string())),
        Status::NoMemory => Err(Fault::NoMemory),
    }
}
