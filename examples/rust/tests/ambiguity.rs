//! Two readings of `if then if then skip else skip ;`, and what shows none. `tools/tree` has made the tree of the grammar in the folder.
use lnorm::{ambiguous, explain, Fault, Readings};

const GRAMMAR: &str = include_str!("dangling_else.json");

fn leaf(text: &str) -> String {
    format!("{{\"Leaf\":{{\"Literal\":{{\"Quoted\":\"{text}\"}}}}}}\n")
}

fn node(nonterminal: &str, production: usize, children: &[String]) -> String {
    let count = children.len();
    children.concat()
        + &format!(
            "{{\"Node\":{{\"nonterminal\":\"{nonterminal}\",\"production\":{production},\"children\":{count}}}}}\n"
        )
}

fn short_if(body: String) -> String {
    node("Statement", 0, &[leaf("if"), leaf("then"), body])
}

fn long_if(body: String, other: String) -> String {
    node("Statement", 1, &[leaf("if"), leaf("then"), body, leaf("else"), other])
}

fn skip() -> String {
    node("Statement", 2, &[leaf("skip")])
}

fn program(statement: String) -> String {
    node("Program", 0, &[statement, leaf(";")])
}

/// In this grammar the lines of a written tree are those of the derivation tree but for their keys.
fn written(lines: &str) -> String {
    lines
        .replace("\"nonterminal\"", "\"rule\"")
        .replace("\"production\"", "\"alternative\"")
}

fn fault(trees: [&str; 2]) -> (String, String) {
    match ambiguous(GRAMMAR, &trees.concat(), 200, &[]) {
        Err(Fault::Told {
            code,
            span: None,
            message,
        }) => (code, message),
        other => panic!("{other:?}"),
    }
}

fn pair(code: &str, message: &str) -> (String, String) {
    (code.into(), message.into())
}

#[test]
fn an_else_has_two_readings() {
    let first = program(long_if(short_if(skip()), skip()));
    let second = program(short_if(long_if(skip(), skip())));
    let lines = first.clone() + &second;
    assert_eq!(lines, include_str!("dangling_else.derivations.jsonl"));
    let readings = ambiguous(GRAMMAR, &lines, 200, &[]).expect("two readings");
    let wanted = Readings {
        first: written(&first),
        second: written(&second),
        path: vec![0],
    };
    assert_eq!(readings, wanted);
    assert_eq!(readings.to_string(), include_str!("dangling_else.readings.jsonl"));
    assert_eq!(explain(GRAMMAR, &first, 200, &[]), Ok(readings.first));
    assert_eq!(explain(GRAMMAR, &second, 200, &[]), Ok(readings.second));
}

#[test]
fn a_tree_with_a_fault_is_named() {
    let right = program(skip());
    let wrong = right.replacen("skip", "else", 1);
    assert_eq!(fault([&wrong, &wrong]), pair("X3", "first /0/0"));
    assert_eq!(fault([&right, &wrong]), pair("X3", "second /0/0"));
    let none = right.replacen("\"production\":2", "\"production\":3", 1);
    assert_eq!(fault([&right, &none]), pair("X2", "second /0"));
    assert_eq!(
        fault([&skip().replacen("Statement", "Other", 1), &right]),
        pair("X1", "first /")
    );
}

#[test]
fn trees_that_show_nothing_are_errors() {
    let tree = program(skip());
    assert_eq!(fault([&tree, &skip()]), pair("X5", ""));
    assert_eq!(fault([&tree, &program(short_if(skip()))]), pair("X6", "0"));
    assert_eq!(
        fault([&program(short_if(skip())), &program(short_if(short_if(skip())))]),
        pair("X6", "2")
    );
    assert_eq!(fault([&tree, &tree]), pair("X7", ""));
    let told = ambiguous(GRAMMAR, &(tree.clone() + &tree), 200, &[]).expect_err("the same tree");
    assert_eq!(told.to_string(), "X7");
}

#[test]
fn lines_of_another_number_of_trees_are_refused() {
    let tree = program(skip());
    for lines in [String::new(), tree.clone(), tree.repeat(3)] {
        match ambiguous(GRAMMAR, &lines, 200, &[]) {
            Err(Fault::Refused(line)) => assert!(line.starts_with("lexplain: the lines are no"), "{line}"),
            other => panic!("{other:?}"),
        }
    }
}
