//! Times side by side: the reference and the library's code on the same programs, turn by turn in one run.

use crate::clock::processor_time;
use crate::functions::{Call, Function, Given, Lent, FUNCTIONS, READ};
use crate::generate::{size, sound, Sound};
use crate::large;
use crate::program::Program;
use crate::random::Random;
use std::hint::black_box;
use std::time::Duration;

/// Document 01's *Legs* and *Late call*, and the report's naive reverse.
const SCENARIOS: [&str; 3] = [
    "pred\tfollow\t2\npred\tleg\t2\nfunc\ta\t0\nfunc\tb\t0\nclause\tfollow\tV0\tV1\tleg\tV0\tV1\n\
     clause\tleg\ta\tb\nclause\tleg\tb\tV0\nquery\tfollow\tG0\tV1\n",
    "pred\tt\t1\npred\tp\t2\nclause\tt\tV0\tp\tV1\tV2\tp\tV0\tV3\nclause\tp\tV0\tV0\nquery\tt\tG0\n",
    "pred\trev\t2\npred\tapp\t3\nfunc\tnil\t0\nfunc\tcons\t2\nclause\trev\tnil\tnil\n\
     clause\trev\tcons\tV0\tV1\tV2\trev\tV1\tV3\tapp\tV3\tcons\tV0\tnil\tV2\nclause\tapp\tnil\tV0\tV0\n\
     clause\tapp\tcons\tV0\tV1\tV2\tcons\tV0\tV3\tapp\tV1\tV2\tV3\nquery\trev\tG0\tV1\n",
];

/// The programs that are timed, by name: small ones, then those with large tables.
pub fn groups() -> Vec<(&'static str, Vec<Program>)> {
    let small: Vec<Program> = SCENARIOS.iter().map(|text| Program::of_text(text)).collect();
    let mixed: Vec<Program> = (0..40).map(|seed| Program::of(random_small(seed))).collect();
    let large = large::groups().into_iter().map(|g| (g.name, g.programs.into_iter().map(Program::of).collect()));
    [("small scenarios", small), ("random, small", mixed)].into_iter().chain(large).collect()
}

pub fn print() {
    let groups = groups();
    let library: String = READ.library().iter().map(|(name, _)| format!("{:>14}{:>8}", format!("{name} µs"), "ratio")).collect();
    println!("{:<12}{:<20}{:>14}{library}", "", "", "reference µs");
    for function in FUNCTIONS {
        for (name, programs) in &groups {
            print_line(function, name, programs);
        }
    }
}

/// The reference's time, and for each way to the library's code its time and the ratio of the two.
fn print_line(function: &Function, name: &str, programs: &[Program]) {
    // A small scenario is lent a small table, as an engine would.
    let large = programs.iter().any(|program| program.words.len() > 100);
    let scale = if large { 1 } else { 16 };
    let mut words = vec![0; function.enough.0 / scale];
    let mut bytes = vec![0; function.enough.1 / scale];
    let given: Vec<Given> = programs.iter().map(function.given).collect();
    let implementations = function.implementations();
    let mut best = vec![f64::INFINITY; implementations.len()];
    for _ in 0..TURNS {
        for ((_, call), best) in implementations.iter().zip(&mut best) {
            *best = best.min(turn(*call, &given, &mut words, &mut bytes));
        }
    }
    let library: String = best[1..].iter().map(|time| format!("{time:>14.2}{:>8.2}", time / best[0])).collect();
    println!("{:<12}{name:<20}{:>14.2}{library}", function.name, best[0]);
}

/// The best of so many turns counts: other work on the machine only adds.
const TURNS: usize = 20;
const TURN: Duration = Duration::from_millis(10);

/// Microseconds for one call, over as many calls on all that is given as fill a turn.
fn turn(call: Call, given: &[Given], words: &mut [u16], bytes: &mut [u8]) -> f64 {
    let start = processor_time();
    let mut calls = 0;
    while calls == 0 || processor_time() - start < TURN {
        for given in given {
            black_box(call(black_box(given), Lent { words: &mut *words, bytes: &mut *bytes }));
        }
        calls += given.len();
    }
    (processor_time() - start).as_secs_f64() * 1e6 / calls as f64
}

/// A random program of at most 100 words.
fn random_small(seed: u64) -> Sound {
    let random = &mut Random::new(seed);
    loop {
        let size = size(random);
        let program = sound(random, &size);
        if (20..=100).contains(&program.words.len()) {
            return program;
        }
    }
}
