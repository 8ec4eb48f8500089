//! A parse tree as JSON: the grammar and its items, symbols and attributes.

use super::tree_types::{bound, path, pattern, type_parameter, type_ref};
use crate::grammar::parse_tree::*;
use serde_json::{json, Value};

pub fn grammar_json(grammar: &Grammar) -> Value {
    json!({
        "prefix": grammar.prefix,
        "span": span(grammar.span),
        "type_parameters": list(&grammar.type_parameters, type_parameter),
        "parameters": list(&grammar.parameters, |it| json!({"name": &*it.name, "ty": type_ref(&it.ty)})),
        "where_clauses": list(&grammar.where_clauses, where_clause),
        "items": list(&grammar.items, item),
        "attributes": list(&grammar.annotations, attribute),
        "module_attributes": grammar.module_attributes,
    })
}

pub fn list<T>(items: &[T], form: impl FnMut(&T) -> Value) -> Value {
    Value::Array(items.iter().map(form).collect())
}

pub fn maybe<T>(item: &Option<T>, form: impl FnOnce(&T) -> Value) -> Value {
    item.as_ref().map_or(Value::Null, form)
}

pub fn span(span: Span) -> Value {
    json!([span.0, span.1])
}

fn where_clause(clause: &WhereClause<TypeRef>) -> Value {
    match clause {
        WhereClause::Lifetime { lifetime, bounds } => json!({"Lifetime": {
            "lifetime": &*lifetime.0,
            "bounds": list(bounds, |it| json!(&*it.0)),
        }}),
        WhereClause::Type { forall, ty, bounds } => json!({"OfType": {
            "forall": list(forall, type_parameter),
            "ty": type_ref(ty),
            "bounds": list(bounds, bound),
        }}),
    }
}

// Items.

fn item(item: &GrammarItem) -> Value {
    match item {
        GrammarItem::MatchToken(token) => json!({"MatchToken": {
            "contents": list(&token.contents, |it| json!({"items": list(&it.items, match_item)})),
            "span": span(token.span),
        }}),
        GrammarItem::ExternToken(token) => json!({"ExternToken": {
            "span": span(token.span),
            "associated_types": list(&token.associated_types, associated_type),
            "enum_token": maybe(&token.enum_token, enum_token),
        }}),
        GrammarItem::InternToken(_) => panic!("only a pass makes a tokenizer"),
        GrammarItem::Nonterminal(rule) => json!({"Nonterminal": nonterminal(rule)}),
        GrammarItem::Use(text) => json!({"Use": text}),
    }
}

fn match_item(item: &MatchItem) -> Value {
    match item {
        MatchItem::CatchAll(at) => json!({"CatchAll": span(*at)}),
        MatchItem::Unmapped(from, at) => json!({"Unmapped": [literal(from), span(*at)]}),
        MatchItem::Mapped(from, to, at) => json!({"Mapped": [literal(from), mapping(to), span(*at)]}),
    }
}

fn mapping(mapping: &MatchMapping) -> Value {
    match mapping {
        MatchMapping::Terminal(name) => json!({"Terminal": terminal(name)}),
        MatchMapping::Skip => json!("Skip"),
    }
}

fn associated_type(it: &AssociatedType) -> Value {
    json!({"type_span": span(it.type_span), "type_name": &*it.type_name, "type_ref": type_ref(&it.type_ref)})
}

fn enum_token(token: &EnumToken) -> Value {
    json!({
        "type_name": type_ref(&token.type_name),
        "type_span": span(token.type_span),
        "conversions": list(&token.conversions, conversion),
    })
}

/// 0.19.8 has no attributes there.
fn conversion(it: &Conversion) -> Value {
    json!({"span": span(it.span), "attributes": [], "from": terminal(&it.from), "to": pattern(&it.to)})
}

fn nonterminal(rule: &NonterminalData) -> Value {
    json!({
        "visibility": visibility(&rule.visibility),
        "name": &*rule.name.0,
        "attributes": list(&rule.annotations, attribute),
        "span": span(rule.span),
        "args": list(&rule.args, |it| json!(&*it.0)),
        "type_decl": maybe(&rule.type_decl, type_ref),
        "alternatives": list(&rule.alternatives, alternative),
    })
}

fn visibility(visibility: &Visibility) -> Value {
    match visibility {
        Visibility::Pub(of) => json!({"Pub": maybe(of, path)}),
        Visibility::PubIn(of) => json!({"PubIn": path(of)}),
        Visibility::Priv => json!("Priv"),
    }
}

fn alternative(it: &Alternative) -> Value {
    json!({
        "span": span(it.span),
        "expr": symbols(&it.expr),
        "condition": maybe(&it.condition, condition),
        "action": maybe(&it.action, action),
        "attributes": list(&it.annotations, attribute),
    })
}

fn condition(it: &Condition) -> Value {
    let op = match it.op {
        ConditionOp::Equals => "Equals",
        ConditionOp::NotEquals => "NotEquals",
        ConditionOp::Match => "Match",
        ConditionOp::NotMatch => "NotMatch",
    };
    json!({"span": span(it.span), "lhs": &*it.lhs.0, "rhs": &*it.rhs, "op": op})
}

fn action(action: &ActionKind) -> Value {
    match action {
        ActionKind::User(code) => json!({"User": code}),
        ActionKind::Fallible(code) => json!({"Fallible": code}),
        ActionKind::Lookahead => json!("Lookahead"),
        ActionKind::Lookbehind => json!("Lookbehind"),
    }
}

/// 0.19.8 has `name` and `name(key = "value")`, and no span of the key.
fn attribute(it: &Annotation) -> Value {
    let arg = match &it.arg {
        None => json!("Empty"),
        Some((key, value)) => json!({"Paren": [{
            "id_span": span(it.id_span),
            "id": &**key,
            "arg": {"Equal": value},
        }]}),
    };
    json!({"id_span": span(it.id_span), "id": &*it.id, "arg": arg})
}

// Symbols.

fn symbols(of: &ExprSymbol) -> Value {
    json!({"symbols": list(&of.symbols, symbol)})
}

fn symbol(symbol: &Symbol) -> Value {
    json!({"span": span(symbol.span), "kind": kind(&symbol.kind)})
}

pub fn kind(kind: &SymbolKind) -> Value {
    match kind {
        SymbolKind::Expr(of) => json!({"Expr": symbols(of)}),
        SymbolKind::AmbiguousId(id) => json!({"AmbiguousId": &**id}),
        SymbolKind::Terminal(of) => json!({"Terminal": terminal(of)}),
        SymbolKind::Nonterminal(name) => json!({"Nonterminal": &*name.0}),
        SymbolKind::Macro(call) => json!({"Macro": {"name": &*call.name.0, "args": list(&call.args, symbol)}}),
        SymbolKind::Repeat(of) => json!({"Repeat": {"op": operator(of.op), "symbol": symbol(&of.symbol)}}),
        SymbolKind::Choose(of) => json!({"Choose": symbol(of)}),
        SymbolKind::Name(name, of) => json!({"Name": [{"mutable": name.mutable, "name": &*name.name}, symbol(of)]}),
        SymbolKind::Lookahead => json!("Lookahead"),
        SymbolKind::Lookbehind => json!("Lookbehind"),
        SymbolKind::Error => json!("Error"),
    }
}

fn operator(op: RepeatOp) -> &'static str {
    match op {
        RepeatOp::Star => "Star",
        RepeatOp::Plus => "Plus",
        RepeatOp::Question => "Question",
    }
}

fn terminal(of: &TerminalString) -> Value {
    match of {
        TerminalString::Literal(of) => json!({"Literal": literal(of)}),
        TerminalString::Bare(name) => json!({"Bare": &**name}),
        TerminalString::Error => json!("Error"),
    }
}

fn literal(of: &TerminalLiteral) -> Value {
    match of {
        TerminalLiteral::Quoted(text) => json!({"Quoted": &**text}),
        TerminalLiteral::Regex(text) => json!({"Regex": &**text}),
    }
}
