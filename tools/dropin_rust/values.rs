//! Parts of the lowered grammar's JSON. What has another form is an error of the program that printed it, and panics.

use crate::collections::Map;
use crate::grammar::parse_tree::{Lifetime, NonterminalString, Path, Span, TypeParameter};
use serde_json::Value;
use string_cache::DefaultAtom as Atom;

/// Panics: `found` is not what was expected.
pub fn unexpected(what: &str, found: impl std::fmt::Debug) -> ! {
    panic!("the normalizer's JSON: {} was expected, not {:?}", what, found)
}

pub fn items(value: &Value) -> &[Value] {
    value.as_array().unwrap_or_else(|| unexpected("a list", value))
}

/// Each item of a list.
pub fn all<T>(value: &Value, read: impl Fn(&Value) -> T) -> Vec<T> {
    items(value).iter().map(read).collect()
}

/// A value, or nothing for `null`.
pub fn some<T>(value: &Value, read: impl Fn(&Value) -> T) -> Option<T> {
    if value.is_null() {
        None
    } else {
        Some(read(value))
    }
}

/// A table: a list of pairs of a key and its value.
pub fn table<K: Ord, V>(value: &Value, key: impl Fn(&Value) -> K, read: impl Fn(&Value) -> V) -> Map<K, V> {
    items(value).iter().map(|row| (key(&row[0]), read(&row[1]))).collect()
}

/// The name of a variant, and what it holds; `null` if it has no field.
pub fn variant(value: &Value) -> (&str, &Value) {
    match value {
        Value::String(name) => (name, &Value::Null),
        Value::Object(members) if members.len() == 1 => {
            let (name, held) = members.iter().next().expect("it has one member");
            (name, held)
        }
        _ => unexpected("a variant", value),
    }
}

pub fn text(value: &Value) -> &str {
    value.as_str().unwrap_or_else(|| unexpected("a text", value))
}

pub fn string(value: &Value) -> String {
    text(value).to_string()
}

pub fn atom(value: &Value) -> Atom {
    Atom::from(text(value))
}

pub fn truth(value: &Value) -> bool {
    value.as_bool().unwrap_or_else(|| unexpected("a truth value", value))
}

pub fn number(value: &Value) -> usize {
    value.as_u64().unwrap_or_else(|| unexpected("a natural number", value)) as usize
}

pub fn span(value: &Value) -> Span {
    Span(number(&value[0]), number(&value[1]))
}

pub fn nonterminal(value: &Value) -> NonterminalString {
    NonterminalString(atom(value))
}

pub fn lifetime(value: &Value) -> Lifetime {
    Lifetime(atom(value))
}

pub fn path(value: &Value) -> Path {
    Path {
        absolute: truth(&value["absolute"]),
        ids: all(&value["ids"], atom),
    }
}

pub fn type_parameter(value: &Value) -> TypeParameter {
    match variant(value) {
        ("Lifetime", name) => TypeParameter::Lifetime(lifetime(name)),
        ("Id", id) => TypeParameter::Id(atom(id)),
        other => unexpected("a type parameter", other),
    }
}
