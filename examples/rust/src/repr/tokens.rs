//! The tokenizer of a grammar that has no extern enum of tokens.
use super::{TerminalLiteral, TerminalString};
use serde::{Deserialize, Serialize};

/// A tokenizer.
#[derive(Clone, Debug, PartialEq, Eq, Serialize, Deserialize)]
#[serde(deny_unknown_fields)]
pub struct InternToken {
    /// Its automaton.
    pub dfa: Dfa,
    /// What it matches. Of the entries with the longest match the one with the highest precedence counts.
    pub match_entries: Vec<MatchEntry>,
}

/// An automaton. Its code is empty: the lexer of `lnorm` builds none, so begin at the entries.
#[derive(Clone, Debug, PartialEq, Eq, Serialize, Deserialize)]
#[serde(deny_unknown_fields)]
pub struct Dfa {
    /// Nothing.
    pub code: Vec<u64>,
}

/// A literal that the tokenizer matches.
#[derive(Clone, Debug, PartialEq, Eq, Serialize, Deserialize)]
#[serde(deny_unknown_fields)]
pub struct MatchEntry {
    /// What is matched.
    pub match_literal: TerminalLiteral,
    /// The higher one wins. It is higher in earlier groups of a match block, and of quoted literals than of regular expressions.
    pub precedence: usize,
    /// What becomes of it.
    pub user_name: MatchMapping,
}

/// What becomes of a match.
#[derive(Clone, Debug, PartialEq, Eq, Serialize, Deserialize)]
pub enum MatchMapping {
    /// A token, of this terminal.
    Terminal(TerminalString),
    /// Nothing: it is passed over, as white space.
    Skip,
}
