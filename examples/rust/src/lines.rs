//! The lines that the library prints, taken apart.
use crate::fault::Fault;
use crate::names::Names;
use std::fmt;

/// A lowered grammar.
#[derive(Clone, Debug, Default, PartialEq, Eq)]
pub struct Lowered {
    /// The productions: the nonterminals in the order of their bytes, those of one in the order of its alternatives.
    pub productions: Vec<Production>,
    /// Each nonterminal with its type.
    pub types: Vec<(String, String)>,
    /// Each public rule, or level of one, with its start symbol.
    pub starts: Vec<(String, String)>,
}

/// A production.
#[derive(Clone, Debug, PartialEq, Eq)]
pub struct Production {
    /// Its left side.
    pub nonterminal: String,
    /// Its symbols, none if it is empty. A nonterminal is one that has a type; all others are terminals.
    pub symbols: Vec<String>,
    /// The number of its action function.
    pub action: usize,
}

impl fmt::Display for Production {
    fn fmt(&self, out: &mut fmt::Formatter) -> fmt::Result {
        let Production {
            nonterminal,
            symbols,
            action,
        } = self;
        write!(out, "{nonterminal} = {} => ActionFn({action});", symbols.join(", "))
    }
}

impl Lowered {
    /// The grammar that the lines are of.
    ///
    /// # Errors
    ///
    /// The first line that is none, or else one that can be read in several ways.
    pub(crate) fn from_lines(text: &str, names: &Names) -> Result<Lowered, Fault> {
        let mut lowered = Lowered::default();
        for line in text.split_terminator('\n') {
            lowered.add(line).ok_or_else(|| Fault::Unclear(line.to_string()))?;
        }
        match lowered.unclear_line(text, names) {
            Some(line) => Err(Fault::Unclear(line)),
            None => Ok(lowered),
        }
    }

    /// Adds what a line says, if it is one.
    fn add(&mut self, line: &str) -> Option<()> {
        if let Some(production) = production_of(line) {
            self.productions.push(production);
        } else if let Some(typed) = line.strip_prefix("type ") {
            self.types.push(pair_of(typed, ": ")?);
        } else {
            self.starts.push(pair_of(line.strip_prefix("start ")?, " = ")?);
        }
        Some(())
    }

    /// A line that can be read in several ways, if the names of the tree make one.
    fn unclear_line(&self, text: &str, names: &Names) -> Option<String> {
        let unclear = |name: &String| {
            let at = text.find(name.as_str())?;
            let start = text[..at].rfind('\n').map_or(0, |feed| feed + 1);
            text[start..].lines().next().map(str::to_string)
        };
        names.unclear.iter().find_map(unclear).or_else(|| {
            let is_name = names.has_error_terminal || self.types.iter().any(|(name, _)| name == "error");
            let has_both = |production: &&Production| production.symbols.iter().any(|symbol| symbol == "error");
            let production = self.productions.iter().find(has_both)?;
            (is_name && names.has_error_symbol).then(|| production.to_string())
        })
    }
}

fn production_of(line: &str) -> Option<Production> {
    let (head, number) = line.strip_suffix(");")?.rsplit_once(" => ActionFn(")?;
    let (nonterminal, symbols) = cut_at(head, " = ")?;
    Some(Production {
        nonterminal: nonterminal.to_string(),
        symbols: symbols_of(symbols),
        action: number.parse().ok()?,
    })
}

fn pair_of(text: &str, between: &str) -> Option<(String, String)> {
    let (first, second) = cut_at(text, between)?;
    Some((first.to_string(), second.to_string()))
}

fn symbols_of(text: &str) -> Vec<String> {
    let mut symbols = Vec::new();
    let mut rest = text;
    while let Some((symbol, behind)) = cut_at(rest, ", ") {
        symbols.push(symbol.to_string());
        rest = behind;
    }
    if !rest.is_empty() {
        symbols.push(rest.to_string());
    }
    symbols
}

/// The two sides of the first `between` that stands in no literal and in no brackets. Names have both in them:
/// `(<Sum> ";")*`, `List<A, B>`.
fn cut_at<'a>(text: &'a str, between: &str) -> Option<(&'a str, &'a str)> {
    let (mut at, mut depth) = (0, 0usize);
    while at < text.len() {
        let rest = &text[at..];
        if depth == 0 && rest.starts_with(between) {
            return Some((&text[..at], &rest[between.len()..]));
        }
        let first = rest.chars().next()?;
        match first {
            '(' | '<' | '[' | '{' => depth += 1,
            ')' | '>' | ']' | '}' => depth = depth.saturating_sub(1),
            _ => {}
        }
        at += literal_size(rest).unwrap_or(first.len_utf8());
    }
    None
}

/// How many bytes the literal has that a text begins with: `".."`, or `r#".."#`. Its characters may be escaped by a backslash.
fn literal_size(text: &str) -> Option<usize> {
    let (open, close) = if text.starts_with("r#\"") {
        (3, "\"#")
    } else {
        (1, "\"")
    };
    if !text.starts_with('"') && open == 1 {
        return None;
    }
    let mut at = open;
    while !text[at..].starts_with(close) {
        let mut rest = text[at..].chars();
        let first = rest.next()?;
        at += first.len_utf8() + if first == '\\' { rest.next()?.len_utf8() } else { 0 };
    }
    Some(at + close.len())
}
