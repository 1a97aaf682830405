//! One call of a public function: what it is given, the rooms that it is lent, and what it leaves there.

use crate::functions::{Answer, Call, Function, Given, Lent};

pub struct Input {
    pub function: &'static Function,
    pub given: Given,
    pub words_room: usize,
    pub bytes_room: usize,
}

/// The reply and everything lent, with some words and bytes behind that were not lent.
#[derive(PartialEq, Eq)]
pub struct Outcome {
    pub reply: Answer,
    pub words: Vec<u16>,
    pub bytes: Vec<u8>,
}

/// Words and bytes that stand behind what is lent.
const BEHIND: usize = 8;
const USED_WORD: u16 = 0xa5a5;
const USED_BYTE: u8 = 0xa5;

impl Input {
    pub fn run(&self, call: Call) -> Outcome {
        let mut words = vec![USED_WORD; self.words_room + BEHIND];
        let mut bytes = vec![USED_BYTE; self.bytes_room + BEHIND];
        let lent = Lent { words: &mut words[..self.words_room], bytes: &mut bytes[..self.bytes_room] };
        let reply = call(&self.given, lent);
        Outcome { reply, words, bytes }
    }

    /// The input so that it can be tried again.
    pub fn print(&self) {
        println!("{}, rooms: {} words, {} bytes", self.function.name, self.words_room, self.bytes_room);
        println!("words {:?}\nbytes \"{}\"", self.given.words, self.given.bytes.escape_ascii());
    }
}
