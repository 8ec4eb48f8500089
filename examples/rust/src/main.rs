//! Prints the productions of grammars, or their faults with their spans:  lnorm TREE.json..
use lnorm::{normalize, Fault};
use std::{env, fs, process::ExitCode};

fn main() -> ExitCode {
    let mut status = 0;
    for path in env::args().skip(1) {
        let Ok(tree) = fs::read_to_string(&path) else {
            eprintln!("{path}: can't be read");
            return ExitCode::from(4);
        };
        match normalize(&tree, 200, &[]) {
            Ok(lowered) => {
                println!("{path}: {} productions", lowered.productions.len());
                for production in &lowered.productions {
                    println!("    {production}");
                }
            }
            Err(fault @ Fault::Told { .. }) => {
                eprintln!("{path}: {fault}");
                status = 1;
            }
            Err(other) => {
                eprintln!("{path}: {other}");
                return ExitCode::from(2);
            }
        }
    }
    ExitCode::from(status)
}
