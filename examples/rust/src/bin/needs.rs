//! What a call needs, on Linux:  needs TREE.json..
//!
//! Of each tree the least stack of a thread under which a call ends, within a twentieth; the most memory that a process has in a call,
//! less what it has before; and how much more it has after each of a thousand calls, by their mean.
use lnorm::lowered_text;
use std::{env, fs, process::Command, thread};

const LEAST: usize = 16;
const MOST: usize = 1 << 20;
const CALLS: usize = 1000;

fn main() {
    let words: Vec<String> = env::args().skip(1).collect();
    match words.iter().map(String::as_str).collect::<Vec<_>>()[..] {
        ["--call", path, stack] => {
            let tree = read(path);
            call(&tree, stack.parse().expect("a number of KiB"), 1);
        }
        ["--memory", path] => {
            let tree = read(path);
            let before = kib("VmRSS:");
            call(&tree, MOST, 1);
            let (most, one) = (kib("VmHWM:"), kib("VmRSS:"));
            call(&tree, MOST, CALLS);
            println!("{} {}", most - before, kib("VmRSS:").saturating_sub(one) * 1024 / CALLS);
        }
        _ => {
            println!(
                "| tree | bytes | stack in KiB | memory in KiB | kept after a call, in bytes |\n|---|---|---|---|---|"
            );
            words.iter().for_each(|path| row(path));
        }
    }
}

fn row(path: &str) {
    let (bytes, stack, memory) = (
        read(path).len(),
        least_stack(path),
        ask(&["--memory", path]).unwrap_or_default(),
    );
    println!("| {path} | {bytes} | {stack} | {} |", memory.trim().replace(' ', " | "));
}

fn read(path: &str) -> String {
    fs::read_to_string(path).unwrap_or_else(|error| panic!("{path}: {error}"))
}

/// Calls so often, in a thread of that stack. The answer may be a fault.
fn call(tree: &str, stack: usize, times: usize) {
    thread::scope(|scope| {
        let calls = || (0..times).for_each(|_| drop(lowered_text(tree, 200, &[])));
        thread::Builder::new()
            .stack_size(stack << 10)
            .spawn_scoped(scope, calls)
            .expect("a thread");
    });
}

fn least_stack(path: &str) -> usize {
    let (mut low, mut high) = (LEAST, MOST);
    while high > low * 21 / 20 {
        let middle = (low + high) / 2;
        if ask(&["--call", path, &middle.to_string()]).is_some() {
            high = middle;
        } else {
            low = middle;
        }
    }
    high
}

/// What this program prints under these words, if it ends well.
fn ask(words: &[&str]) -> Option<String> {
    let ran = Command::new(env::current_exe().ok()?).args(words).output().ok()?;
    ran.status
        .success()
        .then(|| String::from_utf8_lossy(&ran.stdout).into_owned())
}

/// A number of the process's status.
fn kib(name: &str) -> usize {
    let status = read("/proc/self/status");
    let line = status.lines().find_map(|line| line.strip_prefix(name));
    line.and_then(|rest| rest.split_whitespace().next()?.parse().ok())
        .expect(name)
}
