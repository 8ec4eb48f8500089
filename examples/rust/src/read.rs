//! The whole lowered grammar, read from its JSON.
use crate::fault::Fault;
use crate::repr::{Grammar, Origin, Whole};
use serde::Deserialize;

/// The whole lowered grammar. The arguments are those of [`normalize`](crate::normalize).
///
/// # Errors
///
/// Those of [`lowered_text`](crate::lowered_text); or a type nests too deep to be read, and the feature `unbounded_depth` is off.
pub fn grammar(tree: &str, limit: u16, features: &[&str]) -> Result<Grammar, Fault> {
    let whole = whole_of(&crate::whole_json(tree, limit, features, false)?)?;
    Ok(whole.grammar)
}

/// The whole lowered grammar, and what each action was made of, by its number. Arguments and errors are those of [`grammar`].
pub fn grammar_with_origins(tree: &str, limit: u16, features: &[&str]) -> Result<(Grammar, Vec<Origin>), Fault> {
    let whole = whole_of(&crate::whole_json(tree, limit, features, true)?)?;
    let origins = whole
        .origins
        .ok_or_else(|| Fault::Unread("there are no origins".into()))?;
    Ok((whole.grammar, origins))
}

/// What the JSON is of.
fn whole_of(json: &str) -> Result<Whole, Fault> {
    let mut reader = serde_json::Deserializer::from_str(json);
    #[cfg(feature = "unbounded_depth")]
    reader.disable_recursion_limit();
    let read = Whole::deserialize(&mut reader);
    read.and_then(|whole| reader.end().map(|()| whole))
        .map_err(|error| Fault::Unread(said(&error)))
}

/// The message of an error; if it is the depth, with what to do.
fn said(error: &serde_json::Error) -> String {
    let message = error.to_string();
    if message.starts_with("recursion limit exceeded") {
        format!("a type nests too deep for serde_json; build with the feature `unbounded_depth` ({message})")
    } else {
        message
    }
}
