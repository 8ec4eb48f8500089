//! The two readings of an ambiguous text.
use crate::fault::Fault;
use std::fmt;

/// Two different trees of one rule of the grammar as it was written, with one sequence of terminals. Its text is that of the library.
#[derive(Clone, Debug, PartialEq, Eq)]
pub struct Readings {
    /// The lines of the first tree.
    pub first: String,
    /// The lines of the second tree.
    pub second: String,
    /// The indices of children that lead from both roots to the smallest trees that hold all that differs.
    pub path: Vec<usize>,
}

impl fmt::Display for Readings {
    fn fmt(&self, out: &mut fmt::Formatter) -> fmt::Result {
        let Readings { first, second, path } = self;
        let path: Vec<String> = path.iter().map(ToString::to_string).collect();
        writeln!(out, "{first}{second}{{\"Differ\":[{}]}}", path.join(","))
    }
}

impl Readings {
    /// The readings that the library's lines are of.
    pub(crate) fn from_lines(text: &str) -> Result<Readings, Fault> {
        read(text).ok_or_else(|| Fault::Unread(format!("these are no two trees and a path:\n{text}")))
    }
}

fn read(text: &str) -> Option<Readings> {
    let last = text.trim_end_matches('\n').rfind('\n')? + 1;
    let (trees, path) = text.split_at(last);
    let path = path.strip_prefix("{\"Differ\":[")?.strip_suffix("]}\n")?;
    let (first, second) = trees.split_at(last_tree(trees)?);
    if last_tree(first)? > 0 {
        return None;
    }
    Some(Readings {
        first: first.to_string(),
        second: second.to_string(),
        path: path
            .split_terminator(',')
            .map(|index| index.parse().ok())
            .collect::<Option<_>>()?,
    })
}

/// Where the last tree of the lines begins: a node stands behind its children.
fn last_tree(lines: &str) -> Option<usize> {
    let (mut begin, mut wanted) = (lines.len(), 1);
    while wanted > 0 {
        let before = lines[..begin].strip_suffix('\n')?;
        begin = before.rfind('\n').map_or(0, |end| end + 1);
        wanted = wanted - 1 + children_of(&before[begin..])?;
    }
    Some(begin)
}

/// How many trees before a line are its children.
fn children_of(line: &str) -> Option<usize> {
    if line.starts_with("{\"Node\":") || line.starts_with("{\"List\":") {
        line.rsplit(':').next()?.trim_end_matches('}').parse().ok()
    } else {
        Some(0)
    }
}

#[cfg(test)]
mod tests {
    use super::Readings;
    use crate::fault::Fault;

    const LEAF: &str = "{\"Leaf\":{\"Literal\":{\"Quoted\":\",\\\"children\\\":7}}\"}}}\n";

    fn node(children: usize) -> String {
        format!("{{\"Node\":{{\"rule\":\"S:1\",\"alternative\":3,\"children\":{children}}}}}\n")
    }

    #[test]
    fn trees_are_kept_apart() {
        let first = format!("{LEAF}{LEAF}{{\"List\":2}}\n\"Nothing\"\n{}", node(2));
        let second = format!("{{\"List\":0}}\n{}{LEAF}{}", node(1), node(2));
        let text = format!("{first}{second}{{\"Differ\":[1,20]}}\n");
        let readings = Readings::from_lines(&text).expect("two trees and a path");
        assert_eq!(readings.to_string(), text);
        assert_eq!((readings.first, readings.second), (first, second));
        assert_eq!(readings.path, [1, 20]);
    }

    #[test]
    fn the_path_of_roots_is_empty() {
        let text = format!("{}{}{{\"Differ\":[]}}\n", node(0), node(0));
        let readings = Readings::from_lines(&text).expect("two trees and a path");
        assert_eq!((&*readings.first, readings.path.len()), (&*node(0), 0));
        assert_eq!(readings.to_string(), text);
    }

    #[test]
    fn other_texts_are_not_read() {
        let line = "{\"Differ\":[0]}\n";
        for text in [
            "",
            line,
            "\n",
            "{\"List\":1}\n{\"Differ\":[0]}\n",
            "\"Nothing\"\n{\"Differ\":[,]}\n",
        ] {
            assert!(matches!(Readings::from_lines(text), Err(Fault::Unread(_))), "{text}");
        }
    }
}
