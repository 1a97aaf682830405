//! Inputs of the public functions made from one sound program.

use crate::damage::*;
use crate::functions::{Given, ANALYSE, LIST, READ, WRITE};
use crate::generate::Sound;
use crate::input::Input;
use crate::random::Random;
use crate::reference::limits::*;
use crate::reference::program::faults;
use crate::reference::write::write;
use crate::reference::{analyse, list};

/// The program as it is, damaged, with rooms of all kinds, and a few inputs of no program.
pub fn inputs(random: &mut Random, program: &Sound) -> Vec<Input> {
    let Sound { words, names } = program;
    let text = write(words, names).expect("a sound program");
    let bad_words = damaged_words(random, words);
    let bad_names = damaged_names(random, names);
    let texts = [damaged_text(random, &text), damaged_text(random, &text), text.clone()];
    let mut inputs: Vec<Input> = texts.into_iter().map(|t| read_input(random, t, program)).collect();
    let random_text = random_text(random);
    inputs.push(read_input(random, random_text, program));
    let longer_text = longer_text(random, &text);
    inputs.push(read_input(random, longer_text, program));
    for (w, n) in [(words, names), (&bad_words, names), (words, &bad_names), (&bad_words, &bad_names)] {
        inputs.push(write_input(random, w, n, text.len()));
        inputs.push(list_input(random, w, n));
    }
    for w in [words.clone(), words.clone(), bad_words, random_words(random)] {
        let room = table_room(random, &w);
        inputs.push(analyse_input(w, room));
    }
    inputs
}

fn read_input(random: &mut Random, text: Vec<u8>, program: &Sound) -> Input {
    let bytes = if random.once_in(100) { text.repeat(1 + TEXT_BYTES / text.len().max(1)) } else { text };
    // One side is nearly always enough, so that the other is looked at.
    let words_room = if random.once_in(2) { WORDS } else { room(random, program.words.len()) };
    let bytes_room = room(random, program.names.len());
    Input { function: &READ, given: Given { bytes, ..Given::default() }, words_room, bytes_room }
}

fn write_input(random: &mut Random, words: &[u16], names: &[u8], needed: usize) -> Input {
    let given = Given { words: words.to_vec(), bytes: names.to_vec() };
    Input { function: &WRITE, given, words_room: 0, bytes_room: room(random, needed) }
}

fn analyse_input(words: Vec<u16>, words_room: usize) -> Input {
    Input { function: &ANALYSE, given: Given { words, ..Given::default() }, words_room, bytes_room: 0 }
}

fn list_input(random: &mut Random, words: &[u16], names: &[u8]) -> Input {
    let mut table = vec![0; ROWS * ROW_WORDS];
    let mut out = vec![0; 2 * LISTING_BYTES];
    let bytes = list(words, names, &mut table, &mut out).count;
    Input {
        function: &LIST,
        given: Given { words: words.to_vec(), bytes: names.to_vec() },
        words_room: table_room(random, words),
        bytes_room: if random.once_in(3) { LISTING_BYTES } else { room(random, bytes) },
    }
}

/// A table's length near what the rows need.
fn table_room(random: &mut Random, words: &[u16]) -> usize {
    if faults(words).is_some() {
        return random.below(40);
    }
    let mut table = vec![0; ROWS * ROW_WORDS];
    let reply = analyse(words, &mut table);
    let rows = if reply.number == 0 { reply.count } else { ROWS + random.below(3) };
    if random.once_in(3) { ROWS * ROW_WORDS } else { room(random, rows * ROW_WORDS) }
}

/// A large program with the room that `modes` has, and with more.
pub fn large_inputs(program: &Sound) -> Vec<Input> {
    let listed = |words_room, bytes_room| {
        let given = Given { words: program.words.clone(), bytes: program.names.clone() };
        Input { function: &LIST, given, words_room, bytes_room }
    };
    vec![
        analyse_input(program.words.clone(), ROWS * ROW_WORDS),
        analyse_input(program.words.clone(), ROWS * ROW_WORDS + 100),
        listed(ROWS * ROW_WORDS, LISTING_BYTES),
        listed(ROWS * ROW_WORDS, 4 * LISTING_BYTES),
    ]
}
