//! Holds the library's code, compiled by Rust and from the archive, beside a plain Rust implementation of document 01: answers first, then times.

mod clock;
mod compare;
mod damage;
mod deep;
mod functions;
mod generate;
mod input;
mod inputs;
mod large;
mod native;
mod once;
mod painted;
mod program;
mod random;
mod reference;
mod stack;
mod tally;
mod times;
mod vectors;

// The steps of the build, for their tests.
#[cfg(test)]
#[path = "../build/crates.rs"]
mod crates;
#[cfg(test)]
#[path = "../build/tokens.rs"]
mod tokens;
#[cfg(test)]
#[path = "../build/translate.rs"]
mod translate;

use std::io::Write;
use std::path::Path;
use std::process::exit;

/// How many inputs are compared at least.
const INPUTS: usize = 120_000;

const USAGE: &str = "usage:
  bench                    compare the answers of the library's code with the reference's, then their times
  bench times              the times alone
  bench stack              the deepest stack of each function, and what a level of nesting adds
  bench once WHICH NAME    one call for each program that is timed; WHICH: reference, native, archive; NAME: read, analyse, list, write
  bench large              what the large programs cost the reference
  bench reference FOLDER   hold the reference against a folder of samples (NAME.in, NAME.out; words.txt)
  bench reference TEXT     what `modes` prints for a scenario text, by the reference";

fn main() {
    let arguments: Vec<String> = std::env::args().skip(1).collect();
    match &arguments.iter().map(String::as_str).collect::<Vec<_>>()[..] {
        [] => compare_then_time(),
        ["times"] => times::print(),
        ["stack"] => stack::print(),
        ["large"] => large::print(),
        ["reference", path] => reference_alone(Path::new(path)),
        ["once", which, name] if once::run(which, name) => {}
        _ => {
            eprintln!("{USAGE}");
            exit(2);
        }
    }
}

fn compare_then_time() {
    if !compare::compare(INPUTS) {
        exit(1);
    }
    times::print();
}

/// The reference against a folder of samples, or what it prints for a text.
fn reference_alone(path: &Path) {
    if path.is_dir() {
        exit(if vectors::check(path) == 0 { 0 } else { 1 });
    }
    let text = std::fs::read(path).expect("a text");
    std::io::stdout().write_all(&reference::modes(&text)).expect("standard output");
}
