//! Terminals, nonterminals and productions.
use super::{ActionFn, Path, Span, Table};
use serde::{Deserialize, Serialize};

/// A terminal. Variants stand in the order of the keys of a [`Table`].
#[derive(Clone, Debug, PartialEq, Eq, PartialOrd, Ord, Hash, Serialize, Deserialize)]
pub enum TerminalString {
    /// A literal: `"if"`, `r"[0-9]+"`.
    Literal(TerminalLiteral),
    /// A name, of an extern enum or of a match block: `NAME`.
    Bare(String),
    /// The terminal of `!`, which stands for what error recovery drops. A rule or terminal that is named `error` is another symbol.
    Error,
}

impl TerminalString {
    /// Whether it is the terminal of `!`.
    pub fn is_error(&self) -> bool {
        *self == TerminalString::Error
    }
}

/// A literal.
#[derive(Clone, Debug, PartialEq, Eq, PartialOrd, Ord, Hash, Serialize, Deserialize)]
pub enum TerminalLiteral {
    /// A text that is matched as it is; its escapes are undone.
    Quoted(String),
    /// A regular expression, as it is written.
    Regex(String),
}

/// The terminals, and the number of each.
#[derive(Clone, Debug, PartialEq, Eq, Serialize, Deserialize)]
#[serde(deny_unknown_fields)]
pub struct TerminalSet {
    /// The terminals by their numbers: those of the conversions as they stand, unused ones too, then `!` if it is used.
    pub all: Vec<TerminalString>,
    /// The number of each terminal, which is its index in `all`.
    pub bits: Table<TerminalString, usize>,
}

impl TerminalSet {
    /// The number of a terminal, which is its index in `all`.
    pub fn number(&self, terminal: &TerminalString) -> Option<usize> {
        self.bits.get(terminal).copied()
    }
}

/// A nonterminal: a rule or a level of one, an instance of a macro, or what was generated for a repeat, a group or a location symbol.
#[derive(Clone, Debug, PartialEq, Eq, Serialize, Deserialize)]
#[serde(deny_unknown_fields)]
pub struct NonterminalData {
    /// Its attributes, as `#[inline]`, which generated nonterminals have too.
    pub attributes: Vec<Attribute>,
    /// Its productions, in the order of its alternatives.
    pub productions: Vec<Production>,
    /// The name of the rule; of a generated nonterminal the symbol that it was generated for.
    pub span: Span,
    /// Who may name its parser.
    pub visibility: Visibility,
}

impl NonterminalData {
    /// Whether it is to be inlined before tables are built.
    pub fn is_inline(&self) -> bool {
        self.attributes.iter().any(|attribute| attribute.id == "inline")
    }
}

/// A production, `N = A, B`.
#[derive(Clone, Debug, PartialEq, Eq, Serialize, Deserialize)]
#[serde(deny_unknown_fields)]
pub struct Production {
    /// The action that is called with the values of the symbols.
    pub action: ActionFn,
    /// Its left side.
    pub nonterminal: String,
    /// The alternative; of a generated production the symbol that it was generated for.
    pub span: Span,
    /// Its symbols, none if it is empty.
    pub symbols: Vec<Symbol>,
}

/// A symbol of a production.
#[derive(Clone, Debug, PartialEq, Eq, Hash, Serialize, Deserialize)]
pub enum Symbol {
    /// A nonterminal, by its name.
    Nonterminal(String),
    /// A terminal.
    Terminal(TerminalString),
}

impl Symbol {
    /// Whether it is a terminal.
    pub fn is_terminal(&self) -> bool {
        matches!(self, Symbol::Terminal(_))
    }
}

/// Who may name what is made of a rule.
#[derive(Clone, Debug, PartialEq, Eq, Serialize, Deserialize)]
pub enum Visibility {
    /// `pub`, or `pub(path)`.
    Pub(Option<Path>),
    /// `pub(in path)`.
    PubIn(Path),
    /// Nothing is written.
    Priv,
}

/// An attribute, `#[id]`, `#[id(..)]` or `#[id = ".."]`, or one in brackets.
#[derive(Clone, Debug, PartialEq, Eq, Serialize, Deserialize)]
#[serde(deny_unknown_fields)]
pub struct Attribute {
    /// What is behind its name.
    pub arg: AttributeArg,
    /// Its name.
    pub id: String,
    /// Its name in the text; of a generated nonterminal the symbol that this was generated for.
    pub id_span: Span,
}

/// What is behind an attribute's name.
#[derive(Clone, Debug, PartialEq, Eq, Serialize, Deserialize)]
pub enum AttributeArg {
    /// Nothing.
    Empty,
    /// Attributes in brackets.
    Paren(Vec<Attribute>),
    /// A text behind `=`.
    Equal(String),
}
