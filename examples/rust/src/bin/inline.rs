//! Prints a grammar as bison reads it, the inline nonterminals inlined, which a table builder has to do first:
//!
//!     inline TREE.json [--not]
//!
//! With `--not` nothing is inlined; bison may then find conflicts that LALRPOP has not. `bison -Wno-other FILE` prints how many there are.
use lnorm::grammar;
use lnorm::repr::{
    ActionFn, ActionFnDefn, ActionFnDefnKind, Grammar, InlineActionFnDefn, InlinedSymbol, Production, Symbol,
};
use std::collections::HashMap;
use std::fmt::{Display, Formatter, Result as Written};
use std::{env, fs, process::ExitCode};

fn main() -> ExitCode {
    let words: Vec<String> = env::args().skip(1).collect();
    let (path, is_inlined) = match words.iter().map(String::as_str).collect::<Vec<_>>()[..] {
        [path] => (path, true),
        [path, "--not"] => (path, false),
        _ => return ended(2, "usage: inline TREE.json [--not]"),
    };
    let Ok(tree) = fs::read_to_string(path) else {
        return ended(4, &format!("{path}: can't be read"));
    };
    let mut grammar = match grammar(&tree, 200, &[]) {
        Ok(grammar) => grammar,
        Err(fault) => return ended(1, &format!("{path}: {fault}")),
    };
    if is_inlined {
        if let Err(name) = inline(&mut grammar) {
            return ended(1, &format!("{path}: the inline nonterminal {name} derives itself"));
        }
    }
    print!("{}", Bison(&grammar));
    ExitCode::SUCCESS
}

fn ended(status: u8, line: &str) -> ExitCode {
    eprintln!("{line}");
    ExitCode::from(status)
}

/// Replaces each inline nonterminal in all productions, and takes it away. Each production that this makes has an action of its own, which
/// calls those that it is made of. If an inline nonterminal derives itself, the error is its name.
fn inline(grammar: &mut Grammar) -> Result<(), String> {
    for name in inner_first(grammar)? {
        let bodies = grammar.productions_for(&name).to_vec();
        let actions = &mut grammar.action_fn_defns;
        for (_, data) in grammar.nonterminals.iter_mut() {
            let productions = std::mem::take(&mut data.productions).into_iter();
            data.productions = productions
                .flat_map(|production| replaced(production, &name, &bodies, actions))
                .collect();
        }
    }
    grammar.nonterminals.retain(|_, data| !data.is_inline());
    Ok(())
}

/// The inline nonterminals, each behind those in its productions.
fn inner_first(grammar: &Grammar) -> Result<Vec<String>, String> {
    let (mut order, mut open) = (Vec::new(), Vec::new());
    for (name, _) in &grammar.nonterminals {
        visit(grammar, name, &mut order, &mut open)?;
    }
    Ok(order)
}

/// Puts a nonterminal into the order, if it is inline, behind those in its productions. `open` are those that wait for it.
fn visit(grammar: &Grammar, name: &str, order: &mut Vec<String>, open: &mut Vec<String>) -> Result<(), String> {
    if !grammar.is_inline(name) || order.iter().any(|done| done == name) {
        return Ok(());
    }
    if open.iter().any(|waiting| waiting == name) {
        return Err(name.to_string());
    }
    open.push(name.to_string());
    for symbol in grammar
        .productions_for(name)
        .iter()
        .flat_map(|production| &production.symbols)
    {
        if let Symbol::Nonterminal(inner) = symbol {
            visit(grammar, inner, order, open)?;
        }
    }
    order.extend(open.pop());
    Ok(())
}

/// What a production becomes: one for each choice of a body for each place of the nonterminal.
fn replaced(
    production: Production,
    name: &str,
    bodies: &[Production],
    actions: &mut Vec<ActionFnDefn>,
) -> Vec<Production> {
    let is_it = |symbol: &Symbol| matches!(symbol, Symbol::Nonterminal(other) if other == name);
    if !production.symbols.iter().any(is_it) {
        return vec![production];
    }
    let mut choices: Vec<Vec<InlinedSymbol>> = vec![Vec::new()];
    for symbol in &production.symbols {
        let ways: Vec<InlinedSymbol> = if is_it(symbol) {
            let inlined = |body: &Production| InlinedSymbol::Inlined(body.action, body.symbols.clone());
            bodies.iter().map(inlined).collect()
        } else {
            vec![InlinedSymbol::Original(symbol.clone())]
        };
        let with = |before: Vec<InlinedSymbol>| {
            let longer = |way: &InlinedSymbol| before.iter().chain([way]).cloned().collect();
            ways.iter().map(longer).collect::<Vec<_>>()
        };
        choices = choices.into_iter().flat_map(with).collect();
    }
    choices
        .into_iter()
        .map(|choice| made(&production, choice, actions))
        .collect()
}

/// The production of a choice, and its action.
fn made(production: &Production, choice: Vec<InlinedSymbol>, actions: &mut Vec<ActionFnDefn>) -> Production {
    let called = choice.iter().filter_map(|symbol| match symbol {
        InlinedSymbol::Original(_) => None,
        InlinedSymbol::Inlined(action, _) => Some(*action),
    });
    let is_fallible = |action: ActionFn| actions[action.index()].fallible;
    let symbols = choice.iter().flat_map(|symbol| match symbol {
        InlinedSymbol::Original(symbol) => std::slice::from_ref(symbol),
        InlinedSymbol::Inlined(_, symbols) => symbols,
    });
    let made = Production {
        action: ActionFn(actions.len() as u32),
        nonterminal: production.nonterminal.clone(),
        span: production.span,
        symbols: symbols.cloned().collect(),
    };
    let definition = ActionFnDefn {
        fallible: is_fallible(production.action) || called.into_iter().any(is_fallible),
        ret_type: actions[production.action.index()].ret_type.clone(),
        kind: ActionFnDefnKind::Inline(InlineActionFnDefn {
            action: production.action,
            symbols: choice,
        }),
    };
    actions.push(definition);
    made
}

/// A text for a comment: names may hold line feeds.
fn one_line(text: &impl Display) -> String {
    text.to_string().replace('\n', "\\n")
}

/// A grammar in bison's form. Terminals and nonterminals are named by their numbers, `t0` and `n0`, with their texts as comments; `!` is
/// bison's `error`, which no other symbol here is named. Each start symbol is behind a token of its own.
struct Bison<'a>(&'a Grammar);

impl Display for Bison<'_> {
    fn fmt(&self, out: &mut Formatter) -> Written {
        let grammar = self.0;
        let rows = grammar.nonterminals.iter().enumerate();
        let numbers: HashMap<&str, usize> = rows.map(|(number, (name, _))| (&**name, number)).collect();
        let tables = if grammar.algorithm.lalr { "lalr" } else { "ielr" };
        writeln!(out, "%define lr.type {tables}")?;
        for (number, terminal) in grammar.terminals.all.iter().enumerate() {
            if !terminal.is_error() {
                writeln!(out, "%token t{number} // {}", one_line(terminal))?;
            }
        }
        for (number, _) in grammar.start_nonterminals.iter().enumerate() {
            writeln!(out, "%token start{number}")?;
        }
        writeln!(out, "%start starts\n%%")?;
        for (number, (rule, symbol)) in grammar.start_nonterminals.iter().enumerate() {
            writeln!(out, "starts: start{number} n{}; // {rule:?}", numbers[&**symbol])?;
        }
        for production in grammar.productions() {
            write!(out, "n{}:", numbers[&*production.nonterminal])?;
            for symbol in &production.symbols {
                match symbol {
                    Symbol::Nonterminal(name) => write!(out, " n{}", numbers[&**name])?,
                    Symbol::Terminal(terminal) if terminal.is_error() => write!(out, " error")?,
                    Symbol::Terminal(terminal) => write!(
                        out,
                        " t{}",
                        grammar.terminals.bits.get(terminal).ok_or(std::fmt::Error)?
                    )?,
                }
            }
            writeln!(out, "; // {}", one_line(production))?;
        }
        Ok(())
    }
}
