//! The deepest stack of each public function, and what a level of nesting adds to it.

use crate::deep::{self, MOST_LEVELS};
use crate::functions::{Answer, Call, Function, Given, Lent, FUNCTIONS, READ};
use crate::large;
use crate::painted::overwritten;
use crate::program::Program;

/// How many levels of nesting less the other programs have.
const LEVELS_LESS: usize = 20;

pub fn print() {
    let large: Vec<Program> = large::groups().into_iter().flat_map(|group| group.programs).map(Program::of).collect();
    let of_levels = |levels| deep::programs(levels).into_iter().map(Program::of).collect::<Vec<_>>();
    let (deep, less_deep) = (of_levels(MOST_LEVELS), of_levels(MOST_LEVELS - LEVELS_LESS));
    let library: String = READ.library().iter().map(|(name, _)| format!("{name:>10}")).collect();
    println!("{:<10}{:<44}{library}", "bytes", "");
    for function in FUNCTIONS {
        let deepest = |programs: &[Program]| -> Vec<usize> {
            function.library().iter().map(|(_, call)| deepest(function, *call, programs)).collect()
        };
        let (deep, less_deep) = (deepest(&deep), deepest(&less_deep));
        let level: Vec<usize> = deep.iter().zip(&less_deep).map(|(more, less)| (more - less) / LEVELS_LESS).collect();
        print_line(function, "large programs", &deepest(&large));
        print_line(function, &format!("two atoms compared through {MOST_LEVELS} levels"), &deep);
        print_line(function, "a level of nesting", &level);
    }
}

fn print_line(function: &Function, name: &str, bytes: &[usize]) {
    let bytes: String = bytes.iter().map(|bytes| format!("{bytes:>10}")).collect();
    println!("{:<10}{name:<44}{bytes}", function.name);
}

/// The deepest stack of one call for each program.
fn deepest(function: &Function, call: Call, programs: &[Program]) -> usize {
    programs.iter().map(|program| depth_of(function, call, &(function.given)(program))).max().unwrap_or(0)
}

fn depth_of(function: &Function, call: Call, given: &Given) -> usize {
    let mut words = vec![0; function.enough.0];
    let mut bytes = vec![0; function.enough.1];
    let mut depth = |call: Call| {
        overwritten(&mut || {
            call(given, Lent { words: &mut words, bytes: &mut bytes });
        })
    };
    // Less what a thread that does nothing takes, and the calls on the way.
    depth(call) - depth(|_, _| Answer::default())
}
