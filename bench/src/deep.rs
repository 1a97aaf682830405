//! Programs in which two atoms of at most 32 cells are compared through many levels: bindings make terms deeper than they are written.

use crate::generate::{named, Sound};
use crate::reference::limits::*;

/// The most levels that are made: of the 32 cells of each atom, five bring the terms together.
pub const MOST_LEVELS: usize = 2 * (CELLS - 5);

/// Predicates `p` of four arguments and `t` of none, a function `f` of one.
const COUNTS: [u16; 2] = [2, 1];
const ARITIES: [u16; 3] = [4, 0, 1];
const P: u16 = 0;
const T: u16 = 1;
const F: u16 = 0;
const V0: u16 = FIRST_VARIABLE;
const V1: u16 = FIRST_VARIABLE + 1;

/// The two atoms meet as call and head, and as solution and body atom, either one being the call.
pub fn programs(levels: usize) -> Vec<Sound> {
    let (first, second) = (first_atom(levels / 2), second_atom(levels - levels / 2));
    [meetings(&first, &second), meetings(&second, &first)].into_iter().flatten().collect()
}

/// `p(V0, f(..f(V1)), V0, V0)`.
fn first_atom(levels: usize) -> Vec<u16> {
    [vec![P, V0], vec![F; levels], vec![V1, V0, V0]].concat()
}

/// `p(f(..f(V0)), V0, V1, V1)`: with the first atom, its V0 and this V1 end as one term with the levels of both atoms, compared with itself.
fn second_atom(levels: usize) -> Vec<u16> {
    [vec![P], vec![F; levels], vec![V0, V0, V1, V1]].concat()
}

fn meetings(call: &[u16], head: &[u16]) -> Vec<Sound> {
    let fact = [&[0], head].concat();
    let calls = [&[1, T], call].concat();
    let calls_twice = [&[2, T], call, call].concat();
    let calls_again = [&[1], head, call].concat();
    let goal = [call, &[2, 0, 0]].concat();
    vec![
        program(&[&fact], &goal),
        program(&[&fact, &calls], &[T, 0]),
        program(&[&fact, &calls_twice], &[T, 0]),
        program(&[&calls_again, &fact, &calls_twice], &[T, 0]),
    ]
}

fn program(clauses: &[&Vec<u16>], goal: &[u16]) -> Sound {
    let mut words = [&COUNTS[..], &[clauses.len() as u16], &ARITIES].concat();
    clauses.iter().for_each(|clause| words.extend(*clause));
    words.extend(goal);
    named(words)
}
