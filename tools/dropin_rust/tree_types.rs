//! A parse tree as JSON: types, bounds and patterns.

use super::tree::{kind, list, maybe, span};
use crate::grammar::parse_tree::{Path, TypeBound, TypeBoundParameter, TypeParameter, TypeRef};
use crate::grammar::pattern::{FieldPattern, Pattern, PatternKind};
use serde_json::{json, Value};

pub fn type_parameter(it: &TypeParameter) -> Value {
    match it {
        TypeParameter::Lifetime(of) => json!({"Lifetime": &*of.0}),
        TypeParameter::Id(id) => json!({"Id": &**id}),
    }
}

pub fn path(of: &Path) -> Value {
    json!({"absolute": of.absolute, "ids": list(&of.ids, |id| json!(&**id))})
}

pub fn type_ref(of: &TypeRef) -> Value {
    match of {
        TypeRef::Tuple(types) => json!({"Tuple": list(types, type_ref)}),
        TypeRef::Slice(inner) => json!({"Slice": type_ref(inner)}),
        TypeRef::Nominal { path: name, types } => {
            json!({"Nominal": {"path": path(name), "types": list(types, type_ref)}})
        }
        TypeRef::Ref {
            lifetime,
            mutable,
            referent,
        } => json!({"Ref": {
            "lifetime": maybe(lifetime, |it| json!(&*it.0)),
            "mutable": mutable,
            "referent": type_ref(referent),
        }}),
        TypeRef::TraitObject { path: name, types } => {
            json!({"TraitObject": {"path": path(name), "types": list(types, type_ref)}})
        }
        TypeRef::Lifetime(name) => json!({"Lifetime": &*name.0}),
        TypeRef::Id(id) => json!({"Id": &**id}),
        TypeRef::OfSymbol(of) => json!({"OfSymbol": kind(of)}),
        TypeRef::Fn {
            forall,
            path: name,
            parameters,
            ret,
        } => json!({"Fn": {
            "forall": list(forall, type_parameter),
            "path": path(name),
            "parameters": list(parameters, type_ref),
            "ret": maybe(ret, |it| type_ref(it)),
        }}),
    }
}

pub fn bound(of: &TypeBound<TypeRef>) -> Value {
    match of {
        TypeBound::Lifetime(name) => json!({"Lifetime": &*name.0}),
        TypeBound::Fn {
            forall,
            path: name,
            parameters,
            ret,
        } => json!({"Fn": {
            "forall": list(forall, type_parameter),
            "path": path(name),
            "parameters": list(parameters, type_ref),
            "ret": maybe(ret, type_ref),
        }}),
        TypeBound::Trait {
            forall,
            path: name,
            parameters,
        } => json!({"Trait": {
            "forall": list(forall, type_parameter),
            "path": path(name),
            "parameters": list(parameters, bound_parameter),
        }}),
    }
}

fn bound_parameter(it: &TypeBoundParameter<TypeRef>) -> Value {
    match it {
        TypeBoundParameter::Lifetime(name) => json!({"Lifetime": &*name.0}),
        TypeBoundParameter::TypeParameter(of) => json!({"TypeParameter": type_ref(of)}),
        TypeBoundParameter::Associated(name, of) => json!({"Associated": [&**name, type_ref(of)]}),
    }
}

pub fn pattern(of: &Pattern<TypeRef>) -> Value {
    json!({"span": span(of.span), "kind": pattern_kind(&of.kind)})
}

fn pattern_kind(kind: &PatternKind<TypeRef>) -> Value {
    match kind {
        PatternKind::Enum(name, inner) => json!({"Enum": [path(name), list(inner, pattern)]}),
        PatternKind::Struct(name, fields, rest) => json!({"Struct": [path(name), list(fields, field_pattern), rest]}),
        PatternKind::Path(name) => json!({"Path": path(name)}),
        PatternKind::Tuple(inner) => json!({"Tuple": list(inner, pattern)}),
        PatternKind::TupleStruct(name, inner) => json!({"TupleStruct": [path(name), list(inner, pattern)]}),
        PatternKind::Usize(number) => json!({"Usize": number}),
        PatternKind::Underscore => json!("Underscore"),
        PatternKind::DotDot => json!("DotDot"),
        PatternKind::Choose(of) => json!({"Choose": type_ref(of)}),
        PatternKind::CharLiteral(text) => json!({"CharLiteral": &**text}),
        PatternKind::String(text) => json!({"String": text}),
    }
}

fn field_pattern(it: &FieldPattern<TypeRef>) -> Value {
    json!({
        "field_span": span(it.field_span),
        "field_name": &*it.field_name,
        "pattern": pattern(&it.pattern),
    })
}
