//! One call of one function for each program, so that a tool can count what it does.

use crate::functions::{Lent, FUNCTIONS};
use crate::times::groups;
use std::hint::black_box;

/// Calls `function` of `implementation` once for each program that is timed; false where there is no such function.
pub fn run(implementation: &str, function: &str) -> bool {
    let Some(function) = FUNCTIONS.into_iter().find(|f| f.name == function) else {
        return false;
    };
    let Some((_, call)) = function.implementations().into_iter().find(|(name, _)| *name == implementation) else {
        return false;
    };
    let (mut words, mut bytes) = (vec![0; function.enough.0], vec![0; function.enough.1]);
    for (name, programs) in groups() {
        for program in &programs {
            let given = (function.given)(program);
            black_box(call(black_box(&given), Lent { words: &mut words, bytes: &mut bytes }));
        }
        println!("{} of {implementation}, programs: {} ({name})", function.name, programs.len());
    }
    true
}
