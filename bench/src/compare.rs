//! Holds the library's answers against the reference's on generated inputs.

use crate::functions::READ;
use crate::generate::{size, sound};
use crate::input::{Input, Outcome};
use crate::inputs::{inputs, large_inputs};
use crate::large;
use crate::random::Random;
use crate::tally::Tally;

/// One in so many inputs is accepted at least, of each function.
const ACCEPTED_IN: usize = 25;

/// Compares at least so many inputs; false at the first difference, which is printed, or where too little was met to say that there is none.
pub fn compare(least: usize) -> bool {
    let mut tally = Tally::default();
    let mut seed = 0;
    while tally.inputs() < least {
        let random = &mut Random::new(seed);
        let program = if seed % 50 == 0 {
            large::random(seed)
        } else {
            let size = size(random);
            sound(random, &size)
        };
        if !inputs(random, &program).iter().all(|input| agree(input, seed, &mut tally)) {
            return false;
        }
        seed += 1;
    }
    for program in large::groups().iter().flat_map(|group| &group.programs) {
        if !large_inputs(program).iter().all(|input| agree(input, seed, &mut tally)) {
            return false;
        }
    }
    let compared: Vec<&str> = READ.library().iter().map(|(name, _)| *name).collect();
    println!("{} inputs agree in reply and in every lent word and byte: reference, {}", tally.inputs(), compared.join(", "));
    tally.print();
    let lacks = tally.lacks(least / ACCEPTED_IN);
    lacks.iter().for_each(|lack| println!("TOO LITTLE: {lack}"));
    lacks.is_empty()
}

fn agree(input: &Input, seed: u64, tally: &mut Tally) -> bool {
    let expected = input.run(input.function.reference);
    tally.add(input.function, expected.reply[0]);
    input.function.library().into_iter().all(|(name, call)| {
        let given = input.run(call);
        if given != expected {
            println!("DIFFERENT: {name}, input {} of seed {seed}", tally.inputs());
            input.print();
            print_difference(&expected, name, &given);
        }
        given == expected
    })
}

fn print_difference(expected: &Outcome, name: &str, given: &Outcome) {
    println!("reply: reference {:?}, {name} {:?}", expected.reply, given.reply);
    if let Some(at) = (0..expected.words.len()).find(|i| expected.words[*i] != given.words[*i]) {
        println!("word {at}: reference {}, {name} {}", expected.words[at], given.words[at]);
    }
    if let Some(at) = (0..expected.bytes.len()).find(|i| expected.bytes[*i] != given.bytes[*i]) {
        println!("byte {at}: reference {}, {name} {}", expected.bytes[at], given.bytes[at]);
    }
}
