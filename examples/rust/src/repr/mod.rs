//! The whole lowered grammar, by the names of LALRPOP's `grammar::repr`.
//!
//! A struct has each field of the JSON and no other: an unknown or a missing one is an error. Fields stand in the order of their keys, so
//! that `serde_json::to_string` of a [`Whole`] is the text that was read, without its line feed.
//!
//! Spans are byte offsets in the grammar's text, half open. Numbers of actions, terminals and alternatives are counted from 0. `Display`
//! of a type, pattern, path, terminal, symbol or production is its text in the lines of the program `lnorm`.

use serde::{Deserialize, Serialize};

mod actions;
mod patterns;
mod symbols;
mod table;
mod texts;
mod tokens;
mod types;

pub use actions::{
    ActionFn, ActionFnDefn, ActionFnDefnKind, ArgPattern, InlineActionFnDefn, InlinedSymbol, LookaroundActionFnDefn,
    Name, Origin, Tuple, UserActionFnDefn,
};
pub use patterns::{FieldPattern, Pattern, PatternKind};
pub use symbols::{
    Attribute, AttributeArg, NonterminalData, Production, Symbol, TerminalLiteral, TerminalSet, TerminalString,
    Visibility,
};
pub use table::Table;
pub use tokens::{Dfa, InternToken, MatchEntry, MatchMapping};
pub use types::{
    NominalTypeRepr, Parameter, Path, TypeBound, TypeBoundParameter, TypeParameter, TypeRepr, Types, WhereClause,
};

/// What the library answers: a lowered grammar, and the origins of its actions if they were asked for.
#[derive(Clone, Debug, PartialEq, Eq, Serialize, Deserialize)]
#[serde(deny_unknown_fields)]
pub struct Whole {
    /// The lowered grammar.
    pub grammar: Grammar,
    /// What each action was made of, by the number of the action; `None` if nobody asked.
    pub origins: Option<Vec<Origin>>,
}

/// A lowered grammar: without macros, repeats, groups, conditions and levels.
#[derive(Clone, Debug, PartialEq, Eq, Serialize, Deserialize)]
#[serde(deny_unknown_fields)]
pub struct Grammar {
    /// What each action does, by its number ([`Grammar::action`]).
    pub action_fn_defns: Vec<ActionFnDefn>,
    /// How the parser is to be made.
    pub algorithm: Algorithm,
    /// The pattern of each terminal of an extern enum or of the tokenizer; not of `!`.
    pub conversions: Table<TerminalString, Pattern>,
    /// The tokenizer; `None` if the grammar has an extern enum of tokens.
    pub intern_token: Option<InternToken>,
    /// Inner attributes of the module, without `#![` and `]`: `allow(dead_code)`.
    pub module_attributes: Vec<String>,
    /// The nonterminals with their productions, inline ones too.
    pub nonterminals: Table<String, NonterminalData>,
    /// The parameters of the grammar, with those that the tokenizer adds, as `input: &'input str`.
    pub parameters: Vec<Parameter>,
    /// What names made for this grammar begin with, as `__`.
    pub prefix: String,
    /// Each public rule, or level of one, with its start symbol, a nonterminal with one production.
    pub start_nonterminals: Table<String, String>,
    /// The terminals and their numbers.
    pub terminals: TerminalSet,
    /// The type parameters of the grammar, with those that the tokenizer adds, as `'input`.
    pub type_parameters: Vec<TypeParameter>,
    /// The types of tokens, locations, errors, terminals and nonterminals.
    pub types: Types,
    /// The `use` items, each without the word `use` and its semicolon.
    pub uses: Vec<String>,
    /// Whether an alternative has `!`.
    pub uses_error_recovery: bool,
    /// The `where` clauses of the grammar.
    pub where_clauses: Vec<WhereClause>,
}

impl Grammar {
    /// The productions of a nonterminal; none if there is no such nonterminal.
    pub fn productions_for(&self, nonterminal: &str) -> &[Production] {
        self.nonterminals.get(nonterminal).map_or(&[], |data| &data.productions)
    }

    /// All productions: the nonterminals in the order of their bytes, those of one in the order of its alternatives.
    pub fn productions(&self) -> impl Iterator<Item = &Production> {
        self.nonterminals.iter().flat_map(|(_, data)| &data.productions)
    }

    /// The production of an action. Each action of a grammar that was just lowered has one.
    pub fn production(&self, action: ActionFn) -> Option<&Production> {
        self.productions().find(|production| production.action == action)
    }

    /// What an action does. Panics if there is no action of that number.
    pub fn action(&self, action: ActionFn) -> &ActionFnDefn {
        &self.action_fn_defns[action.index()]
    }

    /// Whether the code of an action answers a `Result`. Panics if there is no action of that number.
    pub fn action_is_fallible(&self, action: ActionFn) -> bool {
        self.action(action).fallible
    }

    /// Whether a table builder has to inline a nonterminal first: it has the attribute `inline`.
    pub fn is_inline(&self, nonterminal: &str) -> bool {
        self.nonterminals
            .get(nonterminal)
            .is_some_and(NonterminalData::is_inline)
    }

    /// The pattern of a terminal, which a token of it matches; `!` has none.
    pub fn pattern(&self, terminal: &TerminalString) -> Option<&Pattern> {
        self.conversions.get(terminal)
    }
}

/// How the parser is to be made: attributes of the grammar.
#[derive(Clone, Debug, PartialEq, Eq, Serialize, Deserialize)]
#[serde(deny_unknown_fields)]
pub struct Algorithm {
    /// What the parser is.
    pub codegen: LrCodeGeneration,
    /// Whether tables are LALR(1), in place of LR(1): `#[LALR]`.
    pub lalr: bool,
}

/// What a parser is.
#[derive(Clone, Copy, Debug, PartialEq, Eq, Serialize, Deserialize)]
pub enum LrCodeGeneration {
    /// Tables, and a loop over them.
    TableDriven,
    /// A function for each state: `#[recursive_ascent]`.
    RecursiveAscent,
    /// Both, for tests: `#[test_all]`.
    TestAll,
}

/// From and to: byte offsets in the grammar's text, half open. A span may end before it starts, in a tree that is made by hand.
#[derive(Clone, Copy, Debug, PartialEq, Eq, Hash, Serialize, Deserialize)]
pub struct Span(pub usize, pub usize);
