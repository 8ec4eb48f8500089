//! The six examples, a fault with its place, the way back, and calls from several threads.
use lnorm::{explain, form_version, lowered_text, normalize, toolchain, whole_json, Fault, Lowered};
use std::{fs, thread};

const NAMES: [&str; 6] = ["arithmetic", "calculator", "first", "language", "queries", "sums"];

fn example(file: &str) -> String {
    fs::read_to_string(format!("{}/../{file}", env!("CARGO_MANIFEST_DIR"))).expect(file)
}

/// The lines of a lowered grammar, put together again.
fn lines_of(lowered: &Lowered) -> String {
    let productions = lowered.productions.iter().map(|production| format!("{production}\n"));
    let types = lowered.types.iter().map(|(name, ty)| format!("type {name}: {ty}\n"));
    let starts = lowered
        .starts
        .iter()
        .map(|(rule, symbol)| format!("start {rule} = {symbol}\n"));
    productions.chain(types).chain(starts).collect()
}

#[test]
fn the_examples_have_their_answers() {
    for name in NAMES {
        let (tree, expected) = (example(&format!("{name}.json")), example(&format!("{name}.expected")));
        assert_eq!(lowered_text(&tree, 200, &[]).as_deref(), Ok(&*expected), "{name}");
        let lowered = normalize(&tree, 200, &[]).expect(name);
        assert_eq!(lines_of(&lowered), expected, "{name}");
    }
}

#[test]
fn lines_are_taken_apart() {
    let lowered = normalize(&example("sums.json"), 200, &[]).expect("sums");
    let product = lowered
        .productions
        .iter()
        .find(|production| production.action == 3)
        .expect("the action 3");
    assert_eq!(product.nonterminal, "Sum2");
    assert_eq!(product.symbols, ["Sum2", "\"*\"", "Sum1"]);
    let empty = lowered
        .productions
        .iter()
        .find(|production| production.action == 7)
        .expect("the action 7");
    assert_eq!((&*empty.nonterminal, &empty.symbols[..]), ("(<Sum> \";\")*", &[][..]));
    assert!(lowered
        .types
        .contains(&("(<Sum> \";\")*".into(), "alloc::vec::Vec<i64>".into())));
    assert_eq!(lowered.starts, [("Sums".to_string(), "__Sums".to_string())]);
}

#[test]
fn a_fault_is_told_with_its_place() {
    let wrong = example("sums.json").replacen("{\"AmbiguousId\":\"Sum\"}", "{\"AmbiguousId\":\"Prod\"}", 1);
    match normalize(&wrong, 200, &[]) {
        Err(Fault::Told {
            code,
            span: Some((from, to)),
            message,
        }) => {
            assert_eq!(code, "F27");
            assert!(from < to && to <= example("sums.lalrpop").len());
            assert!(message.contains("is not declared"), "{message}");
        }
        other => panic!("{other:?}"),
    }
}

#[test]
fn what_is_no_call_is_refused() {
    assert_eq!(
        normalize("{}", 200, &[]),
        Err(Fault::Refused("lnorm: not a tree".into()))
    );
    assert_eq!(normalize("", 200, &[]), Err(Fault::Refused("lnorm: not a tree".into())));
    assert_eq!(
        normalize("{}", 200, &["a\0--limit"]),
        Err(Fault::NoFeature("a\0--limit".into()))
    );
}

/// The line that can't be taken apart, if the tree's texts `from` are written as `to`.
fn unclear(name: &str, from: &str, to: &str) -> Option<String> {
    let tree = example(&format!("{name}.json")).replace(from, to);
    match normalize(&tree, 200, &[]) {
        Ok(_) => None,
        Err(Fault::Unclear(line)) => Some(line),
        Err(other) => panic!("{other}"),
    }
}

#[test]
fn names_that_lines_confuse_are_errors() {
    let unclear_rule = |name: &str| unclear("sums", "\"Sum\"", &format!("\"{name}\""));
    assert_eq!(unclear_rule("a b"), None);
    assert_eq!(unclear_rule("S\\u00fc\\ud83d\\ude00m"), None);
    let group = |name: &str| format!("(<{name}> \";\") = {name}, \";\" => ActionFn(9);");
    for name in ["a, b", "a = b", "x => ActionFn(3);", "a: b", "a(", "a,", "=", "a<", "]"] {
        assert_eq!(unclear_rule(name), Some(group(name)));
    }
    assert_eq!(unclear_rule("a\\u002c b"), Some(group("a, b")));
    assert_eq!(unclear_rule("a\\\""), Some(group("a\"")));
    assert_eq!(unclear_rule("a\\nb").as_deref(), Some("(<a"));
    assert_eq!(unclear_rule("a\\ntype b").as_deref(), Some("(<a"));
    assert!(unclear_rule("").is_some());
}

#[test]
fn the_rule_error_and_the_error_terminal_are_not_confused() {
    let line = "Statement = error, \";\" => ActionFn(17);";
    assert_eq!(unclear("language", "\"Result\"", "\"error\"").as_deref(), Some(line));
    assert_eq!(unclear("sums", "\"Sum\"", "\"error\""), None);
}

#[test]
fn the_whole_grammar_is_json() {
    let tree = example("sums.json");
    let json = whole_json(&tree, 200, &[], false).expect("sums");
    assert!(json.starts_with("{\"grammar\":{\"action_fn_defns\":[") && json.ends_with("},\"origins\":null}\n"));
    let json = whole_json(&tree, 200, &[], true).expect("sums");
    assert!(json.contains("\"origins\":[\"Start\",{\"Written\":{\"alternative\":0,\"rule\":\"Sums\"}},"));
    assert_eq!(
        whole_json("{}", 200, &[], true),
        Err(Fault::Refused("lnorm: not a tree".into()))
    );
}

#[test]
fn a_derivation_tree_is_explained() {
    let (grammar, lines) = (example("sums.json"), example("sums.derivation.jsonl"));
    assert_eq!(explain(&grammar, &lines, 200, &[]), Ok(example("sums.written.jsonl")));
    let wrong = lines.replacen("\"production\":0", "\"production\":9", 1);
    let told = Fault::Told {
        code: "X2".into(),
        span: None,
        message: "/0/0/0/0/0/0/0".into(),
    };
    assert_eq!(explain(&grammar, &wrong, 200, &[]), Err(told));
    let no_tree = Fault::Refused("lexplain: the lines are no tree".into());
    assert_eq!(explain(&grammar, "", 200, &[]), Err(no_tree));
}

#[test]
fn the_library_says_what_it_is() {
    assert_eq!(form_version(), 2);
    assert!(toolchain().starts_with("rattle-kit"), "{}", toolchain());
}

#[test]
fn threads_call_at_once() {
    let examples: Vec<_> = NAMES
        .iter()
        .map(|name| (example(&format!("{name}.json")), example(&format!("{name}.expected"))))
        .collect();
    thread::scope(|scope| {
        for first in 0..8 {
            let examples = &examples;
            scope.spawn(move || {
                for turn in 0..60 {
                    let (tree, expected) = &examples[(first + turn) % examples.len()];
                    assert_eq!(lowered_text(tree, 200, &[]).as_deref(), Ok(&**expected));
                }
            });
        }
    });
}
