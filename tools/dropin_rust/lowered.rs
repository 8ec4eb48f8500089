//! A lowered grammar from JSON: the grammar, its nonterminals, actions, terminals and tokenizer.

use super::lowered_types::{pattern, type_repr, where_clause};
use super::values::*;
use crate::grammar::parse_tree::{
    Annotation, InternToken, MatchEntry, MatchMapping, NonterminalString, Span, TerminalLiteral, TerminalString,
    Visibility,
};
use crate::grammar::repr::*;
use crate::lexer::dfa::{build_dfa, Precedence};
use crate::lexer::re;
use crate::normalize::{NormError, NormResult};
use serde_json::Value;

/// All of a lowered grammar but `token_span`, which 0.23.1 does not have.
pub fn lowered_grammar(value: &Value, token_span: Span) -> NormResult<Grammar> {
    let prefix = string(&value["prefix"]);
    Ok(Grammar {
        types: types(&prefix, &value["types"]),
        prefix,
        algorithm: algorithm(&value["algorithm"]),
        uses_error_recovery: truth(&value["uses_error_recovery"]),
        start_nonterminals: table(&value["start_nonterminals"], nonterminal, nonterminal),
        uses: all(&value["uses"], string),
        type_parameters: all(&value["type_parameters"], type_parameter),
        parameters: all(&value["parameters"], parameter),
        where_clauses: all(&value["where_clauses"], where_clause),
        intern_token: some(&value["intern_token"], intern_token).transpose()?,
        action_fn_defns: all(&value["action_fn_defns"], action_defn),
        terminals: TerminalSet {
            all: all(&value["terminals"]["all"], terminal),
            bits: table(&value["terminals"]["bits"], terminal, number),
        },
        nonterminals: items(&value["nonterminals"]).iter().map(nonterminal_data).collect(),
        token_span,
        conversions: table(&value["conversions"], terminal, pattern),
        module_attributes: all(&value["module_attributes"], string),
    })
}

fn algorithm(value: &Value) -> Algorithm {
    let codegen = match text(&value["codegen"]) {
        "TableDriven" => LrCodeGeneration::TableDriven,
        "RecursiveAscent" => LrCodeGeneration::RecursiveAscent,
        "TestAll" => LrCodeGeneration::TestAll,
        other => unexpected("a form of code", other),
    };
    Algorithm {
        lalr: truth(&value["lalr"]),
        codegen,
    }
}

fn parameter(value: &Value) -> Parameter {
    Parameter {
        name: atom(&value["name"]),
        ty: type_repr(&value["ty"]),
    }
}

/// LALRPOP makes two of the seven fields from the others; they are compared with those of the JSON.
fn types(prefix: &str, value: &Value) -> Types {
    let mut types = Types::new(
        prefix,
        some(&value["terminal_loc_type"], type_repr),
        some(&value["error_type"], type_repr),
        type_repr(&value["terminal_token_type"]),
    );
    assert_eq!(types.parse_error_type(), &type_repr(&value["parse_error_type"]));
    assert_eq!(types.error_recovery_type(), &type_repr(&value["error_recovery_type"]));
    for row in items(&value["terminal_types"]) {
        match (terminal(&row[0]), type_repr(&row[1])) {
            // (`Types::new` adds it)
            (TerminalString::Error, of) => assert_eq!(types.error_recovery_type(), &of),
            (name, of) => types.add_term_type(name, of),
        }
    }
    for row in items(&value["nonterminal_types"]) {
        types.add_type(nonterminal(&row[0]), type_repr(&row[1]));
    }
    types
}

// Nonterminals.

fn nonterminal_data(row: &Value) -> (NonterminalString, NonterminalData) {
    let (name, value) = (nonterminal(&row[0]), &row[1]);
    let data = NonterminalData {
        name: name.clone(),
        visibility: visibility(&value["visibility"]),
        span: span(&value["span"]),
        annotations: all(&value["attributes"], annotation),
        productions: all(&value["productions"], production),
    };
    (name, data)
}

fn visibility(value: &Value) -> Visibility {
    match variant(value) {
        ("Pub", of) => Visibility::Pub(some(of, path)),
        ("PubIn", of) => Visibility::PubIn(path(of)),
        ("Priv", _) => Visibility::Priv,
        other => unexpected("a visibility", other),
    }
}

/// In the form of 0.19.8: a name, and at most one key with its value.
fn annotation(value: &Value) -> Annotation {
    let arg = match variant(&value["arg"]) {
        ("Empty", _) => None,
        ("Paren", inner) => inner.get(0).map(|it| (atom(&it["id"]), string(&it["arg"]["Equal"]))),
        other => unexpected("an attribute's argument that 0.19.8 has", other),
    };
    Annotation {
        id_span: span(&value["id_span"]),
        id: atom(&value["id"]),
        arg,
    }
}

fn production(value: &Value) -> Production {
    Production {
        nonterminal: nonterminal(&value["nonterminal"]),
        symbols: all(&value["symbols"], symbol),
        action: ActionFn::new(number(&value["action"])),
        span: span(&value["span"]),
    }
}

fn symbol(value: &Value) -> Symbol {
    match variant(value) {
        ("Nonterminal", name) => Symbol::Nonterminal(nonterminal(name)),
        ("Terminal", of) => Symbol::Terminal(terminal(of)),
        other => unexpected("a symbol", other),
    }
}

// Actions.

fn action_defn(value: &Value) -> ActionFnDefn {
    let kind = match variant(&value["kind"]) {
        ("User", of) => ActionFnDefnKind::User(UserActionFnDefn {
            arg_patterns: all(&of["arg_patterns"], arg_pattern),
            arg_types: all(&of["arg_types"], type_repr),
            code: string(&of["code"]),
        }),
        ("Lookaround", of) => ActionFnDefnKind::Lookaround(lookaround(of)),
        other => unexpected("an action as lowering makes it", other),
    };
    ActionFnDefn {
        fallible: truth(&value["fallible"]),
        ret_type: type_repr(&value["ret_type"]),
        kind,
    }
}

fn arg_pattern(value: &Value) -> Name {
    match variant(value) {
        ("Name", of) => Name::new(truth(&of["mutable"]), atom(&of["name"])),
        other => unexpected("an argument's pattern that 0.19.8 has", other),
    }
}

fn lookaround(value: &Value) -> LookaroundActionFnDefn {
    match text(value) {
        "Lookahead" => LookaroundActionFnDefn::Lookahead,
        "Lookbehind" => LookaroundActionFnDefn::Lookbehind,
        other => unexpected("a location symbol", other),
    }
}

// Terminals and the tokenizer.

fn terminal(value: &Value) -> TerminalString {
    match variant(value) {
        ("Literal", of) => TerminalString::Literal(literal(of)),
        ("Bare", name) => TerminalString::Bare(atom(name)),
        ("Error", _) => TerminalString::Error,
        other => unexpected("a terminal", other),
    }
}

fn literal(value: &Value) -> TerminalLiteral {
    match variant(value) {
        ("Quoted", of) => TerminalLiteral::Quoted(atom(of)),
        ("Regex", of) => TerminalLiteral::Regex(atom(of)),
        other => unexpected("a literal", other),
    }
}

fn match_entry(value: &Value) -> MatchEntry {
    let user_name = match variant(&value["user_name"]) {
        ("Terminal", of) => MatchMapping::Terminal(terminal(of)),
        ("Skip", _) => MatchMapping::Skip,
        other => unexpected("a mapping", other),
    };
    MatchEntry {
        precedence: number(&value["precedence"]),
        match_literal: literal(&value["match_literal"]),
        user_name,
    }
}

/// The tokenizer, with the automaton that the program leaves empty.
fn intern_token(value: &Value) -> NormResult<InternToken> {
    let match_entries = all(&value["match_entries"], match_entry);
    let precedences: Vec<_> = match_entries.iter().map(|entry| Precedence(entry.precedence)).collect();
    let regexes: Vec<_> = match_entries
        .iter()
        .map(|entry| match &entry.match_literal {
            TerminalLiteral::Quoted(text) => Ok(re::parse_literal(text)),
            TerminalLiteral::Regex(text) => re::parse_regex(text).map_err(|error| no_tokenizer(error.to_string())),
        })
        .collect::<NormResult<_>>()?;
    match build_dfa(&regexes, &precedences) {
        Ok(dfa) => Ok(InternToken { match_entries, dfa }),
        Err(error) => Err(no_tokenizer(format!("{:?}", error))),
    }
}

fn no_tokenizer(reason: String) -> NormError {
    NormError {
        message: format!("LALRPOP builds no tokenizer: {}", reason),
        span: Span(0, 0),
    }
}
