//! Actions, and what they were made of.
use super::{Symbol, TypeRepr};
use serde::{Deserialize, Serialize};

/// The number of an action: its index in `action_fn_defns`.
#[derive(Clone, Copy, Debug, PartialEq, Eq, PartialOrd, Ord, Hash, Serialize, Deserialize)]
pub struct ActionFn(pub u32);

impl ActionFn {
    /// The number as an index.
    pub fn index(self) -> usize {
        self.0 as usize
    }
}

/// An action: what is done with the values of a production's symbols.
#[derive(Clone, Debug, PartialEq, Eq, Serialize, Deserialize)]
#[serde(deny_unknown_fields)]
pub struct ActionFnDefn {
    /// Whether its code answers a `Result`, with the value as `Ok`: `=>?`.
    pub fallible: bool,
    /// What it does.
    pub kind: ActionFnDefnKind,
    /// The type of its value, without the `Result`.
    pub ret_type: TypeRepr,
}

/// What an action does.
#[derive(Clone, Debug, PartialEq, Eq, Serialize, Deserialize)]
pub enum ActionFnDefnKind {
    /// It runs code, of the grammar or generated.
    User(UserActionFnDefn),
    /// It calls an action with values of others: a table builder that inlines makes these, a grammar that was just lowered has none.
    Inline(InlineActionFnDefn),
    /// It answers a location: `@L` or `@R`.
    Lookaround(LookaroundActionFnDefn),
}

/// Code: `fn _(pattern: type, ..) -> ret_type { code }`.
#[derive(Clone, Debug, PartialEq, Eq, Serialize, Deserialize)]
#[serde(deny_unknown_fields)]
pub struct UserActionFnDefn {
    /// A pattern for each symbol of the production; `_` if its value is not used.
    pub arg_patterns: Vec<ArgPattern>,
    /// The type of each symbol's value.
    pub arg_types: Vec<TypeRepr>,
    /// An expression of Rust, each `<>` replaced.
    pub code: String,
}

/// A call of an action, some of whose arguments are calls of others.
#[derive(Clone, Debug, PartialEq, Eq, Serialize, Deserialize)]
#[serde(deny_unknown_fields)]
pub struct InlineActionFnDefn {
    /// The action that is called.
    pub action: ActionFn,
    /// Its arguments.
    pub symbols: Vec<InlinedSymbol>,
}

/// An argument of a call.
#[derive(Clone, Debug, PartialEq, Eq, Serialize, Deserialize)]
pub enum InlinedSymbol {
    /// The value of a symbol.
    Original(Symbol),
    /// What this action answers for the values of these symbols.
    Inlined(ActionFn, Vec<Symbol>),
}

/// A location symbol.
#[derive(Clone, Copy, Debug, PartialEq, Eq, Serialize, Deserialize)]
pub enum LookaroundActionFnDefn {
    /// `@L`: where the next token begins.
    Lookahead,
    /// `@R`: where the last token ended.
    Lookbehind,
}

/// A pattern of an argument.
#[derive(Clone, Debug, PartialEq, Eq, Serialize, Deserialize)]
pub enum ArgPattern {
    /// A name.
    Name(Name),
    /// Several patterns in brackets.
    Tuple(Tuple),
}

/// A name: `x`, `mut x`.
#[derive(Clone, Debug, PartialEq, Eq, Serialize, Deserialize)]
#[serde(deny_unknown_fields)]
pub struct Name {
    /// Whether it has `mut`.
    pub mutable: bool,
    /// The name without it.
    pub name: String,
}

/// Patterns in brackets: `(x, y)`.
#[derive(Clone, Debug, PartialEq, Eq, Serialize, Deserialize)]
#[serde(deny_unknown_fields)]
pub struct Tuple {
    /// The patterns.
    pub tuples: Vec<ArgPattern>,
}

/// What an action, with its production, was made of.
#[derive(Clone, Debug, PartialEq, Eq, Serialize, Deserialize)]
#[serde(deny_unknown_fields)]
pub enum Origin {
    /// The production of a start symbol.
    Start,
    /// An alternative that is written.
    Written {
        /// Its index in its rule, disabled alternatives counted.
        alternative: usize,
        /// The rule or macro; of a level the rule that has it.
        rule: String,
    },
    /// From a level of a rule to the one below.
    LevelStep,
    /// Of a group.
    Group,
    /// Of `X*`: nothing.
    StarEmpty,
    /// Of `X*`: what `X+` is.
    StarSome,
    /// Of `X+`: one X.
    PlusOne,
    /// Of `X+`: one X more.
    PlusMore,
    /// Of `X?`: one X.
    QuestionSome,
    /// Of `X?`: nothing.
    QuestionEmpty,
    /// Of `X{n}`.
    Times,
    /// Of `@L`.
    Lookahead,
    /// Of `@R`.
    Lookbehind,
}
