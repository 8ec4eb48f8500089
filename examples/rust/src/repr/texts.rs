//! The texts of symbols, types and patterns, as the lines of the program `lnorm` have them.
use super::{
    ActionFn, ArgPattern, FieldPattern, Name, NominalTypeRepr, Path, Pattern, PatternKind, Production, Symbol,
    TerminalLiteral, TerminalString, TypeParameter, TypeRepr,
};
use std::fmt::{Display, Formatter, Result};

/// Writes the items with `between` between them.
fn list<T: Display>(out: &mut Formatter, items: &[T], between: &str) -> Result {
    for (index, item) in items.iter().enumerate() {
        if index > 0 {
            out.write_str(between)?;
        }
        write!(out, "{item}")?;
    }
    Ok(())
}

/// Writes a text between double quotes; control characters, backslashes and quotes are escaped.
fn quoted(out: &mut Formatter, text: &str) -> Result {
    out.write_str("\"")?;
    for character in text.chars() {
        match character {
            '\0' | '\t' | '\r' | '\n' | '\\' | '"' => write!(out, "{}", Escaped(character))?,
            '\u{1}'..='\u{1f}' | '\u{7f}' => write!(out, "{}", character.escape_unicode())?,
            other => write!(out, "{other}")?,
        }
    }
    out.write_str("\"")
}

/// A character that is escaped by a backslash and one more.
struct Escaped(char);

impl Display for Escaped {
    fn fmt(&self, out: &mut Formatter) -> Result {
        let behind = match self.0 {
            '\0' => '0',
            '\t' => 't',
            '\r' => 'r',
            '\n' => 'n',
            other => other,
        };
        write!(out, "\\{behind}")
    }
}

impl Display for ActionFn {
    fn fmt(&self, out: &mut Formatter) -> Result {
        write!(out, "ActionFn({})", self.0)
    }
}

impl Display for TerminalString {
    fn fmt(&self, out: &mut Formatter) -> Result {
        match self {
            TerminalString::Literal(literal) => write!(out, "{literal}"),
            TerminalString::Bare(name) => out.write_str(name),
            TerminalString::Error => out.write_str("error"),
        }
    }
}

impl Display for TerminalLiteral {
    fn fmt(&self, out: &mut Formatter) -> Result {
        match self {
            TerminalLiteral::Quoted(text) => quoted(out, text),
            TerminalLiteral::Regex(text) => {
                out.write_str("r#")?;
                quoted(out, text)?;
                out.write_str("#")
            }
        }
    }
}

impl Display for Symbol {
    fn fmt(&self, out: &mut Formatter) -> Result {
        match self {
            Symbol::Nonterminal(name) => out.write_str(name),
            Symbol::Terminal(terminal) => write!(out, "{terminal}"),
        }
    }
}

impl Display for Production {
    fn fmt(&self, out: &mut Formatter) -> Result {
        write!(out, "{} = ", self.nonterminal)?;
        list(out, &self.symbols, ", ")?;
        write!(out, " => {};", self.action)
    }
}

impl Display for Path {
    fn fmt(&self, out: &mut Formatter) -> Result {
        if self.absolute {
            out.write_str("::")?;
        }
        list(out, &self.ids, "::")
    }
}

impl Display for TypeParameter {
    fn fmt(&self, out: &mut Formatter) -> Result {
        match self {
            TypeParameter::Lifetime(name) | TypeParameter::Id(name) => out.write_str(name),
        }
    }
}

impl Display for NominalTypeRepr {
    fn fmt(&self, out: &mut Formatter) -> Result {
        write!(out, "{}", self.path)?;
        if !self.types.is_empty() {
            out.write_str("<")?;
            list(out, &self.types, ", ")?;
            out.write_str(">")?;
        }
        Ok(())
    }
}

impl Display for TypeRepr {
    fn fmt(&self, out: &mut Formatter) -> Result {
        match self {
            TypeRepr::Tuple(types) => {
                out.write_str("(")?;
                list(out, types, ", ")?;
                out.write_str(")")
            }
            TypeRepr::Slice(ty) => write!(out, "[{ty}]"),
            TypeRepr::Nominal(ty) => write!(out, "{ty}"),
            TypeRepr::Associated { id, type_parameter } => write!(out, "{type_parameter}::{id}"),
            TypeRepr::Lifetime(name) => out.write_str(name),
            TypeRepr::Ref {
                lifetime,
                mutable,
                referent,
            } => {
                out.write_str("&")?;
                if let Some(lifetime) = lifetime {
                    write!(out, "{lifetime} ")?;
                }
                write!(out, "{}{referent}", if *mutable { "mut " } else { "" })
            }
            TypeRepr::TraitObject(ty) => write!(out, "dyn {ty}"),
            TypeRepr::Fn {
                forall,
                parameters,
                path,
                ret,
            } => {
                out.write_str("dyn ")?;
                if !forall.is_empty() {
                    out.write_str("for<")?;
                    list(out, forall, ", ")?;
                    out.write_str("> ")?;
                }
                write!(out, "{path}(")?;
                list(out, parameters, ", ")?;
                out.write_str(")")?;
                ret.iter().try_for_each(|ret| write!(out, " -> {ret}"))
            }
        }
    }
}

impl Display for Pattern {
    fn fmt(&self, out: &mut Formatter) -> Result {
        write!(out, "{}", self.kind)
    }
}

impl Display for PatternKind {
    fn fmt(&self, out: &mut Formatter) -> Result {
        match self {
            PatternKind::Enum(path, patterns) | PatternKind::TupleStruct(path, patterns) => {
                write!(out, "{path}(")?;
                list(out, patterns, ", ")?;
                out.write_str(")")
            }
            PatternKind::Struct(path, fields, has_rest) => {
                write!(out, "{path} {{ ")?;
                list(out, fields, ", ")?;
                let between = if fields.is_empty() { "" } else { ", " };
                write!(
                    out,
                    "{} }}",
                    if *has_rest {
                        format!("{between}..")
                    } else {
                        String::new()
                    }
                )
            }
            PatternKind::Path(path) => write!(out, "{path}"),
            PatternKind::Tuple(patterns) => {
                out.write_str("(")?;
                list(out, patterns, ", ")?;
                out.write_str(")")
            }
            PatternKind::Usize(number) => write!(out, "{number}"),
            PatternKind::Underscore => out.write_str("_"),
            PatternKind::DotDot => out.write_str(".."),
            PatternKind::Choose(ty) => write!(out, "{ty}"),
            PatternKind::CharLiteral(text) => write!(out, "'{text}'"),
            PatternKind::String(text) => quoted(out, text),
        }
    }
}

impl Display for FieldPattern {
    fn fmt(&self, out: &mut Formatter) -> Result {
        write!(out, "{}: {}", self.field_name, self.pattern)
    }
}

impl Display for Name {
    fn fmt(&self, out: &mut Formatter) -> Result {
        write!(out, "{}{}", if self.mutable { "mut " } else { "" }, self.name)
    }
}

impl Display for ArgPattern {
    fn fmt(&self, out: &mut Formatter) -> Result {
        match self {
            ArgPattern::Name(name) => write!(out, "{name}"),
            ArgPattern::Tuple(tuple) => {
                out.write_str("(")?;
                list(out, &tuple.tuples, ", ")?;
                out.write_str(")")
            }
        }
    }
}
