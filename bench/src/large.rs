//! Large programs: random ones of about 500, 2,000 and 4,000 rows and of more than 4,096, a long and a wide one.

use crate::clock::processor_time;
use crate::generate::{named, sound, Size, Sound};
use crate::random::Random;
use crate::reference::analyse::Analysis;
use crate::reference::limits::*;
use crate::reference::plan::Plan;
use crate::reference::program::decode;

/// Programs under one name, of about the same number of rows.
pub struct Group {
    pub name: &'static str,
    pub programs: Vec<Sound>,
}

pub fn groups() -> Vec<Group> {
    let random = |name, seeds: [u64; 8]| Group { name, programs: seeds.map(random).into() };
    vec![
        random("500 rows", [1493, 831, 562, 764, 1700, 1501, 2667, 949]),
        random("2,000 rows", [517, 345, 2580, 1870, 2783, 1632, 2723, 1467]),
        random("4,000 rows", [697, 1422, 2929, 85, 2241, 1830, 2875, 1180]),
        random("over 4,096 rows", [1702, 2645, 2967, 2418, 2291, 775, 1079, 1519]),
        Group { name: "long: 1,900 rows", programs: vec![long(54)] },
        Group { name: "wide: 3,800 rows", programs: vec![wide(12)] },
    ]
}

/// A random program with a few predicates of many arguments: half of them have over 80 rows, one in eight over 4,096.
pub fn random(seed: u64) -> Sound {
    let mut random = Random::new(seed);
    let size = Size {
        predicates: random.between(1, 4),
        functions: random.between(1, 5),
        clauses: random.between(2, 24),
        body: random.between(1, 5),
        least_arity: random.between(2, 8),
        arity: ARITY,
        variables: random.between(4, VARIABLES),
        variables_in_eight: random.between(5, 8),
    };
    sound(&mut random, &size)
}

fn variables(numbers: std::ops::Range<u16>) -> impl Iterator<Item = u16> {
    numbers.map(|v| FIRST_VARIABLE + v)
}

/// Many rounds with a few rows each: every predicate calls the next sixteen times.
pub fn long(predicates: u16) -> Sound {
    let mut words = vec![predicates, 1, predicates + 1];
    words.extend((0..predicates).map(|_| 1));
    words.push(0);
    for p in 0..predicates - 1 {
        words.extend([BODY as u16, p, FIRST_VARIABLE]);
        (0..BODY).for_each(|_| words.extend([p + 1, FIRST_VARIABLE]));
    }
    words.extend([0, predicates - 1, 0, 0, predicates - 1, FIRST_VARIABLE]);
    words.extend([0, FIRST_VARIABLE, 1, 0]);
    named(words)
}

/// Few rounds with many pairs: `q` has 256 solutions, and each clause of `t` joins them with themselves.
pub fn wide(clauses: u16) -> Sound {
    const T: u16 = 0;
    const Q: u16 = 1;
    const B: u16 = 2;
    const A: u16 = 0;
    const F: u16 = 1;
    let mut words = vec![3, 2, clauses + 3, 8, 8, 1, 0, 2];
    words.extend([0, B, A, 0, B, FIRST_VARIABLE]);
    words.extend([8, Q]);
    words.extend(variables(0..8));
    variables(0..8).for_each(|v| words.extend([B, v]));
    for _ in 0..clauses {
        words.extend([2, T]);
        (0..8).for_each(|pair| words.extend([F, FIRST_VARIABLE + 2 * pair, FIRST_VARIABLE + 2 * pair + 1]));
        words.push(Q);
        words.extend(variables(0..8));
        words.push(Q);
        words.extend(variables(8..16));
    }
    words.push(T);
    words.extend(variables(0..8));
    words.extend([8, 0, 0, 0, 0, 0, 0, 0, 0]);
    named(words)
}

/// What the reference does for each large program.
pub fn print() {
    println!("rows\tround\tshapes\tplaces\tpairs\trule 2\trule 3\tunified\tµs");
    for group in groups() {
        println!("{}", group.name);
        for program in &group.programs {
            print_one(&program.words);
        }
    }
}

/// `pairs` are unions of masks; `rule 2` and `rule 3` the combinations of rows without sets of masks between.
fn print_one(words: &[u16]) {
    let start = processor_time();
    let program = decode(words).expect("a sound program");
    let plan = Plan::new(&program);
    let mut analysis = Analysis::new(&plan, ROWS);
    let full = analysis.run().is_err();
    let time = (processor_time() - start).as_micros();
    let (rule2, rule3) = analysis.combinations();
    println!(
        "{}{}\t{}\t{}\t{}\t{}\t{rule2}\t{rule3}\t{}\t{time}",
        analysis.rows.len(),
        if full { "+" } else { "" },
        analysis.rows.last().map_or(0, |row| row[0]),
        plan.shapes.len(),
        plan.places.len(),
        analysis.pairs,
        analysis.unifications,
    );
}
