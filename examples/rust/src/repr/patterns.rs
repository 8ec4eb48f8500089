//! Patterns of terminals.
use super::{Path, Span, TypeRepr};
use serde::{Deserialize, Serialize};

/// A pattern of tokens, with its span.
#[derive(Clone, Debug, PartialEq, Eq, Serialize, Deserialize)]
#[serde(deny_unknown_fields)]
pub struct Pattern {
    /// What it is.
    pub kind: PatternKind,
    /// Where it is written; of a terminal of the tokenizer the word `grammar`.
    pub span: Span,
}

/// What a pattern is.
#[derive(Clone, Debug, PartialEq, Eq, Serialize, Deserialize)]
pub enum PatternKind {
    /// `Path(a, b)`.
    Enum(Path, Vec<Pattern>),
    /// `Path { f: a, .. }`; the last is whether it has `..`.
    Struct(Path, Vec<FieldPattern>, bool),
    /// `Path`.
    Path(Path),
    /// `(a, b)`.
    Tuple(Vec<Pattern>),
    /// `Token(6, &'input str)`, of a terminal of the tokenizer: the number is the index of its entry.
    TupleStruct(Path, Vec<Pattern>),
    /// A number.
    Usize(usize),
    /// `_`.
    Underscore,
    /// `..`.
    DotDot,
    /// `<T>`: what is there is the value of the terminal.
    Choose(TypeRepr),
    /// A character, as it stands between its quotes.
    CharLiteral(String),
    /// A text.
    String(String),
}

/// A field of a pattern of a struct: `f: a`.
#[derive(Clone, Debug, PartialEq, Eq, Serialize, Deserialize)]
#[serde(deny_unknown_fields)]
pub struct FieldPattern {
    /// Its name.
    pub field_name: String,
    /// Where it is written.
    pub field_span: Span,
    /// Its pattern.
    pub pattern: Pattern,
}
