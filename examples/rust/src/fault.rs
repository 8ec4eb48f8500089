//! Why a call has no answer.
use std::fmt;

/// Why there is no answer.
#[derive(Clone, Debug, PartialEq, Eq)]
pub enum Fault {
    /// The grammar, or a derivation tree, has a fault: its error code, as `F27` or `X3`, with its span and message, as `301..302: ..`, or the
    /// child indexes that lead to it, as `/0/1`.
    Told {
        /// The error code.
        code: String,
        /// The bytes of the grammar's text, of a fault of a grammar.
        span: Option<(usize, usize)>,
        /// The message, or the path in the tree; of two trees behind `first ` or `second `. With `X6` the index of the first terminal that
        /// differs, with `X5` and `X7` nothing.
        message: String,
    },
    /// Arguments or input are wrong: the line that says so.
    Refused(String),
    /// That is no feature: it has a zero byte in it.
    NoFeature(String),
    /// An allocation failed, or a pattern is past the size that a regular expression may have.
    NoMemory,
    /// This line of the lowered grammar can be read in several ways, or in none: a name in it has a character of the lines' own, or
    /// `error` in it may be `!` or a name. The whole grammar keeps names apart: `whole_json`, or `grammar` with the feature `serde`.
    Unclear(String),
    /// The library's answer was not read: of `ambiguous`; or, with the feature `serde`, the whole grammar, with the message of serde_json. If
    /// the feature `unbounded_depth` is off, a type may nest too deep.
    Unread(String),
}

impl fmt::Display for Fault {
    fn fmt(&self, out: &mut fmt::Formatter) -> fmt::Result {
        match self {
            Fault::Told {
                code,
                span: Some((from, to)),
                message,
            } => write!(out, "{code} {from}..{to}: {message}"),
            Fault::Told {
                code,
                span: None,
                message,
            } if message.is_empty() => out.write_str(code),
            Fault::Told {
                code,
                span: None,
                message,
            } => write!(out, "{code} {message}"),
            Fault::Refused(line) => out.write_str(line),
            Fault::NoFeature(feature) => write!(out, "a feature has a zero byte in it: {feature:?}"),
            Fault::NoMemory => out.write_str("out of memory"),
            Fault::Unclear(line) => write!(
                out,
                "the names in this line can't be told apart; ask for the whole grammar (`whole_json`, or `grammar` with the feature `serde`): {line}"
            ),
            Fault::Unread(message) => write!(out, "the answer can't be read: {message}"),
        }
    }
}

impl std::error::Error for Fault {}

impl Fault {
    /// The fault of a line of faults.
    pub(crate) fn from_line(line: &str) -> Fault {
        let line = line.strip_suffix('\n').unwrap_or(line);
        let (code, rest) = line.split_once(' ').unwrap_or((line, ""));
        if let ("first" | "second", Some((of_tree, path))) = (code, rest.split_once(' ')) {
            return Fault::Told {
                code: of_tree.to_string(),
                span: None,
                message: format!("{code} {path}"),
            };
        }
        let (span, message) = match rest.split_once(": ") {
            Some((place, message)) => (span_of(place), message),
            None => (None, rest),
        };
        Fault::Told {
            code: code.to_string(),
            span,
            message: message.to_string(),
        }
    }
}

/// The span of a text such as `12..20`.
fn span_of(text: &str) -> Option<(usize, usize)> {
    let (from, to) = text.split_once("..")?;
    Some((from.parse().ok()?, to.parse().ok()?))
}
