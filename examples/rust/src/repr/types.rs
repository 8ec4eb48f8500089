//! Types, and what a grammar declares of them.
use super::{Symbol, Table, TerminalString};
use serde::{Deserialize, Serialize};

/// A parameter of the grammar.
#[derive(Clone, Debug, PartialEq, Eq, Serialize, Deserialize)]
#[serde(deny_unknown_fields)]
pub struct Parameter {
    /// Its name.
    pub name: String,
    /// Its type.
    pub ty: TypeRepr,
}

/// A type parameter, of the grammar or of a `for<..>`.
#[derive(Clone, Debug, PartialEq, Eq, Serialize, Deserialize)]
pub enum TypeParameter {
    /// A lifetime with its quote: `'a`.
    Lifetime(String),
    /// A type: `T`.
    Id(String),
}

/// A `where` clause, for one bound.
#[derive(Clone, Debug, PartialEq, Eq, Serialize, Deserialize)]
#[serde(deny_unknown_fields)]
#[allow(clippy::large_enum_variant)]
pub enum WhereClause {
    /// `for<'a> ..`.
    Forall {
        /// What it binds.
        binder: Vec<TypeParameter>,
        /// The clause behind.
        clause: Box<WhereClause>,
    },
    /// `subject: bound`.
    Bound {
        /// The bound.
        bound: TypeBound,
        /// The type or lifetime.
        subject: TypeRepr,
    },
}

/// A bound of a type or lifetime.
#[derive(Clone, Debug, PartialEq, Eq, Serialize, Deserialize)]
#[serde(deny_unknown_fields)]
pub enum TypeBound {
    /// `'a`.
    Lifetime(String),
    /// `for<'a> Fn(A, B) -> R`.
    Fn {
        /// What it binds.
        forall: Vec<TypeParameter>,
        /// The types in the brackets.
        parameters: Vec<TypeRepr>,
        /// `Fn`, `FnMut` or such a trait.
        path: Path,
        /// The type that is returned, if one is written.
        ret: Option<TypeRepr>,
    },
    /// `for<'a> Trait<A, B>`.
    Trait {
        /// What it binds.
        forall: Vec<TypeParameter>,
        /// The arguments.
        parameters: Vec<TypeBoundParameter>,
        /// The trait.
        path: Path,
    },
}

/// An argument of a trait in a bound.
#[derive(Clone, Debug, PartialEq, Eq, Serialize, Deserialize)]
pub enum TypeBoundParameter {
    /// `'a`.
    Lifetime(String),
    /// `T`.
    TypeParameter(TypeRepr),
    /// `Item = T`.
    Associated(String, TypeRepr),
}

/// A path.
#[derive(Clone, Debug, PartialEq, Eq, Serialize, Deserialize)]
#[serde(deny_unknown_fields)]
pub struct Path {
    /// Whether it begins with `::`.
    pub absolute: bool,
    /// Its parts.
    pub ids: Vec<String>,
}

/// A type.
#[derive(Clone, Debug, PartialEq, Eq, Serialize, Deserialize)]
#[serde(deny_unknown_fields)]
pub enum TypeRepr {
    /// `(A, B)`.
    Tuple(Vec<TypeRepr>),
    /// `[T]`.
    Slice(Box<TypeRepr>),
    /// `Path<A, B>`.
    Nominal(NominalTypeRepr),
    /// `T::Id`.
    Associated {
        /// The associated type.
        id: String,
        /// The type parameter.
        type_parameter: String,
    },
    /// `'a`, as an argument of a type.
    Lifetime(String),
    /// `&'a mut T`.
    Ref {
        /// The lifetime, if one is written or was named.
        lifetime: Option<String>,
        /// Whether it has `mut`.
        mutable: bool,
        /// What it refers to.
        referent: Box<TypeRepr>,
    },
    /// `dyn Path<A, B>`.
    TraitObject(NominalTypeRepr),
    /// `dyn for<'a> Path(A, B) -> R`.
    Fn {
        /// What it binds.
        forall: Vec<TypeParameter>,
        /// The types in the brackets.
        parameters: Vec<TypeRepr>,
        /// `Fn`, `FnMut` or such a trait.
        path: Path,
        /// The type that is returned, if one is written.
        ret: Option<Box<TypeRepr>>,
    },
}

impl TypeRepr {
    /// Whether it is `()`.
    pub fn is_unit(&self) -> bool {
        matches!(self, TypeRepr::Tuple(types) if types.is_empty())
    }
}

/// A path with its arguments.
#[derive(Clone, Debug, PartialEq, Eq, Serialize, Deserialize)]
#[serde(deny_unknown_fields)]
pub struct NominalTypeRepr {
    /// The path.
    pub path: Path,
    /// The arguments, lifetimes among them; none if no `<..>` is written.
    pub types: Vec<TypeRepr>,
}

/// The types of a grammar.
#[derive(Clone, Debug, PartialEq, Eq, Serialize, Deserialize)]
#[serde(deny_unknown_fields)]
pub struct Types {
    /// What `!` has as its value: `ErrorRecovery<L, T, E>`.
    pub error_recovery_type: TypeRepr,
    /// The type of the user's errors, if one is declared; else errors are `&'static str`.
    pub error_type: Option<TypeRepr>,
    /// The type of each nonterminal's value.
    pub nonterminal_types: Table<String, TypeRepr>,
    /// What a parser fails with: `ParseError<L, T, E>`.
    pub parse_error_type: TypeRepr,
    /// The type of locations, if there is one; else they are `()`.
    pub terminal_loc_type: Option<TypeRepr>,
    /// The type of tokens.
    pub terminal_token_type: TypeRepr,
    /// The type of each terminal's value, where it is not that of tokens; that of `!` too.
    pub terminal_types: Table<TerminalString, TypeRepr>,
}

impl Types {
    /// The type of a nonterminal's value.
    pub fn nonterminal_type(&self, nonterminal: &str) -> Option<&TypeRepr> {
        self.nonterminal_types.get(nonterminal)
    }

    /// The type of a terminal's value; that of tokens, if none is listed.
    pub fn terminal_type(&self, terminal: &TerminalString) -> &TypeRepr {
        self.terminal_types.get(terminal).unwrap_or(&self.terminal_token_type)
    }

    /// The type of a symbol's value; none of a nonterminal that the grammar has not.
    pub fn symbol_type(&self, symbol: &Symbol) -> Option<&TypeRepr> {
        match symbol {
            Symbol::Nonterminal(name) => self.nonterminal_type(name),
            Symbol::Terminal(terminal) => Some(self.terminal_type(terminal)),
        }
    }
}
