//! A lowered grammar from JSON: types, bounds, where clauses and patterns.

use super::values::*;
use crate::grammar::parse_tree::{TypeBound, TypeBoundParameter};
use crate::grammar::pattern::{FieldPattern, Pattern, PatternKind};
use crate::grammar::repr::{NominalTypeRepr, TypeRepr, WhereClause};
use serde_json::Value;

pub fn type_repr(value: &Value) -> TypeRepr {
    match variant(value) {
        ("Tuple", types) => TypeRepr::Tuple(all(types, type_repr)),
        ("Slice", inner) => TypeRepr::Slice(Box::new(type_repr(inner))),
        ("Nominal", of) => TypeRepr::Nominal(nominal(of)),
        ("Associated", of) => TypeRepr::Associated {
            type_parameter: atom(&of["type_parameter"]),
            id: atom(&of["id"]),
        },
        ("Lifetime", name) => TypeRepr::Lifetime(lifetime(name)),
        ("Ref", of) => TypeRepr::Ref {
            lifetime: some(&of["lifetime"], lifetime),
            mutable: truth(&of["mutable"]),
            referent: Box::new(type_repr(&of["referent"])),
        },
        ("TraitObject", of) => TypeRepr::TraitObject(nominal(of)),
        ("Fn", of) => TypeRepr::Fn {
            forall: all(&of["forall"], type_parameter),
            path: path(&of["path"]),
            parameters: all(&of["parameters"], type_repr),
            ret: some(&of["ret"], |it| Box::new(type_repr(it))),
        },
        other => unexpected("a type", other),
    }
}

fn nominal(value: &Value) -> NominalTypeRepr {
    NominalTypeRepr {
        path: path(&value["path"]),
        types: all(&value["types"], type_repr),
    }
}

pub fn where_clause(value: &Value) -> WhereClause {
    match variant(value) {
        ("Forall", of) => WhereClause::Forall {
            binder: all(&of["binder"], type_parameter),
            clause: Box::new(where_clause(&of["clause"])),
        },
        ("Bound", of) => WhereClause::Bound {
            subject: type_repr(&of["subject"]),
            bound: bound(&of["bound"]),
        },
        other => unexpected("a where clause", other),
    }
}

fn bound(value: &Value) -> TypeBound<TypeRepr> {
    match variant(value) {
        ("Lifetime", name) => TypeBound::Lifetime(lifetime(name)),
        ("Fn", of) => TypeBound::Fn {
            forall: all(&of["forall"], type_parameter),
            path: path(&of["path"]),
            parameters: all(&of["parameters"], type_repr),
            ret: some(&of["ret"], type_repr),
        },
        ("Trait", of) => TypeBound::Trait {
            forall: all(&of["forall"], type_parameter),
            path: path(&of["path"]),
            parameters: all(&of["parameters"], bound_parameter),
        },
        other => unexpected("a bound", other),
    }
}

fn bound_parameter(value: &Value) -> TypeBoundParameter<TypeRepr> {
    match variant(value) {
        ("Lifetime", name) => TypeBoundParameter::Lifetime(lifetime(name)),
        ("TypeParameter", of) => TypeBoundParameter::TypeParameter(type_repr(of)),
        ("Associated", of) => TypeBoundParameter::Associated(atom(&of[0]), type_repr(&of[1])),
        other => unexpected("a parameter of a bound", other),
    }
}

pub fn pattern(value: &Value) -> Pattern<TypeRepr> {
    let kind = match variant(&value["kind"]) {
        ("Enum", of) => PatternKind::Enum(path(&of[0]), all(&of[1], pattern)),
        ("Struct", of) => PatternKind::Struct(path(&of[0]), all(&of[1], field_pattern), truth(&of[2])),
        ("Path", name) => PatternKind::Path(path(name)),
        ("Tuple", inner) => PatternKind::Tuple(all(inner, pattern)),
        ("TupleStruct", of) => PatternKind::TupleStruct(path(&of[0]), all(&of[1], pattern)),
        ("Usize", of) => PatternKind::Usize(number(of)),
        ("Underscore", _) => PatternKind::Underscore,
        ("DotDot", _) => PatternKind::DotDot,
        ("Choose", of) => PatternKind::Choose(type_repr(of)),
        ("CharLiteral", of) => PatternKind::CharLiteral(atom(of)),
        ("String", of) => PatternKind::String(string(of)),
        other => unexpected("a pattern", other),
    };
    Pattern {
        span: span(&value["span"]),
        kind,
    }
}

fn field_pattern(value: &Value) -> FieldPattern<TypeRepr> {
    FieldPattern {
        field_span: span(&value["field_span"]),
        field_name: atom(&value["field_name"]),
        pattern: pattern(&value["pattern"]),
    }
}
