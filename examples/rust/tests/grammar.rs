//! The whole lowered grammar: what the structs write is what was read, and values that can be seen in the grammars' texts.
use lnorm::repr::{
    ActionFn, ActionFnDefnKind, ArgPattern, Grammar, MatchMapping, Origin, Span, Symbol, TerminalLiteral,
    TerminalString, Whole,
};
use lnorm::{grammar, grammar_with_origins, normalize, whole_json, Fault};
use std::fs;
use std::process::Command;

const NAMES: [&str; 6] = ["arithmetic", "calculator", "first", "language", "queries", "sums"];

fn example(file: &str) -> String {
    fs::read_to_string(format!("{}/../{file}", env!("CARGO_MANIFEST_DIR"))).expect(file)
}

fn lowered(name: &str) -> Grammar {
    grammar(&example(&format!("{name}.json")), 200, &[]).expect(name)
}

fn quoted(text: &str) -> TerminalString {
    TerminalString::Literal(TerminalLiteral::Quoted(text.into()))
}

/// The bytes of a grammar's text.
fn text_at(text: &str, Span(from, to): Span) -> &str {
    &text[from..to]
}

#[test]
fn what_is_written_is_what_was_read() {
    for name in NAMES {
        for with_origins in [false, true] {
            let json = whole_json(&example(&format!("{name}.json")), 200, &[], with_origins).expect(name);
            let whole: Whole = serde_json::from_str(&json).expect(name);
            assert_eq!(serde_json::to_string(&whole).expect(name) + "\n", json, "{name}");
            assert_eq!(
                serde_json::to_value(&whole).expect(name).to_string() + "\n",
                json,
                "{name}"
            );
            assert_eq!(whole.origins.is_some(), with_origins, "{name}");
        }
    }
}

#[test]
fn lines_are_the_texts_of_the_structs() {
    for name in NAMES {
        let grammar = lowered(name);
        let productions = grammar.productions().map(|production| format!("{production}\n"));
        let types = grammar.types.nonterminal_types.iter();
        let starts = grammar.start_nonterminals.iter();
        let lines: String = productions
            .chain(types.map(|(name, ty)| format!("type {name}: {ty}\n")))
            .chain(starts.map(|(rule, symbol)| format!("start {rule} = {symbol}\n")))
            .collect();
        assert_eq!(lines, example(&format!("{name}.expected")), "{name}");
    }
}

#[test]
fn tables_find_what_they_list() {
    for name in NAMES {
        let grammar = lowered(name);
        for (key, data) in &grammar.nonterminals {
            assert_eq!(grammar.productions_for(key), data.productions, "{name}");
            assert!(grammar.types.nonterminal_type(key).is_some(), "{name}");
        }
        for (number, terminal) in grammar.terminals.all.iter().enumerate() {
            assert_eq!(grammar.terminals.number(terminal), Some(number), "{name}");
            assert_eq!(grammar.pattern(terminal).is_none(), terminal.is_error(), "{name}");
        }
        for production in grammar.productions() {
            assert_eq!(grammar.production(production.action), Some(production), "{name}");
        }
    }
}

#[test]
fn actions_are_those_of_the_alternatives() {
    let text = example("sums.lalrpop");
    let (grammar, origins) = grammar_with_origins(&example("sums.json"), 200, &[]).expect("sums");
    let sum = &grammar.productions_for("Sum")[0];
    assert_eq!(text_at(&text, sum.span), "<l:Sum> \"+\" <r:Sum> => l + r");
    let (left, right) = (Symbol::Nonterminal("Sum".into()), Symbol::Nonterminal("Sum2".into()));
    assert_eq!(sum.symbols, [left, Symbol::Terminal(quoted("+")), right]);
    assert_eq!(sum.action, ActionFn(5));
    let written = Origin::Written {
        alternative: 2,
        rule: "Sum".into(),
    };
    assert_eq!(origins[sum.action.index()], written);
    assert_eq!(origins.len(), grammar.action_fn_defns.len());
    let action = grammar.action(sum.action);
    let ActionFnDefnKind::User(code) = &action.kind else {
        panic!("{action:?}")
    };
    assert_eq!(code.code, "l + r");
    assert_eq!(
        code.arg_patterns.iter().map(ArgPattern::to_string).collect::<Vec<_>>(),
        ["l", "_", "r"]
    );
    assert_eq!(
        code.arg_types.iter().map(ToString::to_string).collect::<Vec<_>>(),
        ["i64", "Tok", "i64"]
    );
    assert_eq!((action.ret_type.to_string(), action.fallible), ("i64".into(), false));
}

#[test]
fn inline_nonterminals_are_marked() {
    let grammar = lowered("sums");
    let names = grammar.nonterminals.iter().map(|(name, _)| &**name);
    let inline: Vec<&str> = names.filter(|name| grammar.is_inline(name)).collect();
    assert_eq!(inline, ["(<Sum> \";\")", "(<Sum> \";\")*"]);
    assert!(!grammar.is_inline("no such name"));
}

/// The list of sums and the group in it are gone from `Sums`; a repeat of one or more stays, as it derives itself.
#[test]
fn inline_prints_what_is_left_after_inlining() {
    let path = format!("{}/../sums.json", env!("CARGO_MANIFEST_DIR"));
    let ran = Command::new(env!("CARGO_BIN_EXE_inline")).arg(path).output();
    let printed = String::from_utf8(ran.expect("inline").stdout).expect("UTF-8");
    let productions: Vec<&str> = printed.lines().filter(|line| line.starts_with('n')).collect();
    let wanted = [
        "n0: n1 t3; // (<Sum> \";\")+ = Sum, \";\" => ActionFn(12);",
        "n0: n0 n1 t3; // (<Sum> \";\")+ = (<Sum> \";\")+, Sum, \";\" => ActionFn(13);",
        "n1: n1 t2 n3; // Sum = Sum, \"+\", Sum2 => ActionFn(5);",
        "n1: n3; // Sum = Sum2 => ActionFn(6);",
        "n2: t0; // Sum1 = \"num\" => ActionFn(2);",
        "n3: n3 t1 n2; // Sum2 = Sum2, \"*\", Sum1 => ActionFn(3);",
        "n3: n2; // Sum2 = Sum1 => ActionFn(4);",
        "n4:; // Sums =  => ActionFn(14);",
        "n4: n0; // Sums = (<Sum> \";\")+ => ActionFn(15);",
        "n5: n4; // __Sums = Sums => ActionFn(0);",
    ];
    assert_eq!(productions, wanted);
}

#[test]
fn terminals_have_numbers_and_patterns() {
    let (grammar, text) = (lowered("arithmetic"), example("arithmetic.lalrpop"));
    assert_eq!(grammar.terminals.number(&quoted("*")), Some(2));
    for (_, pattern) in &grammar.conversions {
        assert_eq!(pattern.to_string(), text_at(&text, pattern.span));
    }
    assert_eq!(grammar.types.terminal_type(&quoted("*")).to_string(), "Tok");
    let queries = lowered("queries");
    let decimal = TerminalString::Bare("decimal".into());
    let pattern = queries.pattern(&decimal).expect("decimal").to_string();
    assert_eq!(pattern, "Token::Decimal { whole: i64, digits: u32, .. }");
    assert_eq!(queries.types.terminal_type(&decimal).to_string(), "(i64, u32)");
    assert!(queries.algorithm.lalr);
}

#[test]
fn the_error_terminal_and_the_tokenizer() {
    let grammar = lowered("language");
    assert!(grammar.uses_error_recovery);
    assert!(grammar.terminals.all.last().is_some_and(TerminalString::is_error));
    assert_eq!(
        grammar.types.terminal_type(&TerminalString::Error),
        &grammar.types.error_recovery_type
    );
    let tokenizer = grammar.intern_token.as_ref().expect("a tokenizer");
    let skipped = tokenizer
        .match_entries
        .iter()
        .filter(|entry| entry.user_name == MatchMapping::Skip);
    let texts: Vec<String> = skipped.map(|entry| entry.match_literal.to_string()).collect();
    assert_eq!(texts, [r##"r#"//[^\\n]*"#"##, r##"r#"\\s+"#"##]);
    let fallible = grammar.action_fn_defns.iter().filter(|action| action.fallible);
    assert_eq!(fallible.count(), 1);
    assert_eq!(
        grammar
            .parameters
            .iter()
            .map(|it| format!("{}: {}", it.name, it.ty))
            .collect::<Vec<_>>(),
        ["problems: &'p mut Vec<Problem>", "input: &'input str"]
    );
}

#[test]
fn unknown_and_missing_fields_are_errors() {
    let json = whole_json(&example("first.json"), 200, &[], false).expect("first");
    let read = |text: &str| serde_json::from_str::<Whole>(text).map_err(|error| error.to_string());
    assert!(read(&json).is_ok());
    let error = read(&json.replacen("\"lalr\":", "\"other\":1,\"lalr\":", 1)).expect_err("one more");
    assert!(error.contains("unknown field `other`"), "{error}");
    let error = read(&json.replacen("\"uses_error_recovery\":false,", "", 1)).expect_err("one less");
    assert!(error.contains("missing field `uses_error_recovery`"), "{error}");
}

/// A repeat's type nests deeper than the type that is written, which a tree has in the same 127 levels.
#[test]
fn deep_types() {
    let deep = (0..115).fold("{\"Tuple\":[]}".to_string(), |ty, _| format!("{{\"Slice\":{ty}}}"));
    let tree = example("first.json").replacen("\"type_decl\":{\"Tuple\":[]}", &format!("\"type_decl\":{deep}"), 1);
    let rule = |name: &str| format!("{{\"kind\":{{\"AmbiguousId\":\"{name}\"}},\"span\":[0,0]}}");
    let repeat =
        |inner: &str| format!("{{\"kind\":{{\"Repeat\":{{\"op\":\"Plus\",\"symbol\":{inner}}}}},\"span\":[0,0]}}");
    let list = format!(
        "{{\"Nonterminal\":{{\"visibility\":\"Priv\",\"name\":\"T\",\"attributes\":[],\"span\":[0,0],\"args\":[],\"type_decl\":null,\"alternatives\":[{{\"span\":[0,0],\"expr\":{{\"symbols\":[{}]}},\"condition\":null,\"action\":null,\"attributes\":[]}}]}}}},",
        repeat(&repeat(&repeat(&rule("S"))))
    );
    let tree = tree.replacen("{\"Nonterminal\":", &(list + "{\"Nonterminal\":"), 1);
    assert!(normalize(&tree, 200, &[]).is_ok());
    match grammar(&tree, 200, &[]) {
        Ok(grammar) if cfg!(feature = "unbounded_depth") => {
            let ty = grammar.types.nonterminal_type("T").map(ToString::to_string);
            assert!(ty.is_some_and(|ty| ty.contains(&"[".repeat(115))));
        }
        Err(Fault::Unread(message)) if !cfg!(feature = "unbounded_depth") => {
            assert!(message.contains("`unbounded_depth`"), "{message}")
        }
        other => panic!("{:?}", other.err()),
    }
}
