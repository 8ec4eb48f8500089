//! The names in a tree that make lines which can be read in several ways.
//!
//! Lines have names as they are written, so a name with `, ` in it reads as two. No line tells: so the tree is asked, whose texts become
//! the names.

/// What a tree says of the lines.
#[derive(Debug, Default)]
pub(crate) struct Names {
    /// Its names with a character that lines use between names or in generated ones, or without any character.
    pub(crate) unclear: Vec<String>,
    /// Whether a terminal is named `error`.
    pub(crate) has_error_terminal: bool,
    /// Whether it has `!`, which lines write as `error`.
    pub(crate) has_error_symbol: bool,
}

/// The keys of texts that are no names: code, literals and what else lines have not, or escape.
const OTHERS: [&str; 10] = [
    "CharLiteral",
    "Equal",
    "Fallible",
    "Quoted",
    "Regex",
    "String",
    "Use",
    "User",
    "module_attributes",
    "rhs",
];

impl Names {
    /// Those of a tree, which the library has read: so it is JSON of the right form.
    pub(crate) fn of_tree(tree: &str) -> Names {
        let mut names = Names::default();
        let (mut key, mut rest) = (String::new(), tree);
        while let Some(start) = rest.find('"') {
            let Some((text, behind)) = string_of(&rest[start + 1..]) else {
                break;
            };
            rest = behind;
            if rest.trim_start().starts_with(':') {
                key = text;
            } else {
                names.add(&key, text);
            }
        }
        names
    }

    /// Adds a text, behind the key of its object.
    fn add(&mut self, key: &str, text: String) {
        match (key, &*text) {
            ("Bare", "error") => self.has_error_terminal = true,
            ("kind" | "Terminal" | "OfSymbol" | "from", "Error") => self.has_error_symbol = true,
            _ if !OTHERS.contains(&key) && (text.is_empty() || text.contains(is_of_lines)) => self.unclear.push(text),
            _ => {}
        }
    }
}

/// Whether lines have that character between names, or in the names of generated nonterminals.
fn is_of_lines(character: char) -> bool {
    matches!(
        character,
        ',' | ':' | '=' | '\n' | '"' | '(' | ')' | '<' | '>' | '[' | ']' | '{' | '}'
    )
}

/// The string whose first character that is, and what is behind it.
fn string_of(text: &str) -> Option<(String, &str)> {
    let (mut string, mut characters) = (String::new(), text.chars());
    loop {
        match characters.next()? {
            '"' => return Some((string, characters.as_str())),
            '\\' => match characters.next()? {
                'n' => string.push('\n'),
                'r' => string.push('\r'),
                't' => string.push('\t'),
                'b' => string.push('\u{8}'),
                'f' => string.push('\u{c}'),
                'u' => {
                    let (character, behind) = unicode_of(characters.as_str())?;
                    string.push(character);
                    characters = behind.chars();
                }
                other => string.push(other),
            },
            other => string.push(other),
        }
    }
}

/// The character of four digits behind `\u`, or of eight in two halves, and what is behind it.
fn unicode_of(text: &str) -> Option<(char, &str)> {
    let half = |text: &str| u16::from_str_radix(text.get(..4)?, 16).ok();
    let (first, behind) = (half(text)?, text.get(4..)?);
    if let Some(character) = char::from_u32(first.into()) {
        return Some((character, behind));
    }
    let second = half(behind.strip_prefix("\\u")?)?;
    let character = char::decode_utf16([first, second]).next()?.ok()?;
    Some((character, behind.get(6..)?))
}
