//! A sound program in all its forms: its words, its names and its text.

use crate::generate::Sound;
use crate::reference::read::read;
use crate::reference::write::write;

pub struct Program {
    pub words: Vec<u16>,
    pub names: Vec<u8>,
    pub text: Vec<u8>,
}

impl Program {
    pub fn of(Sound { words, names }: Sound) -> Program {
        let text = write(&words, &names).expect("a sound program");
        Program { words, names, text }
    }

    pub fn of_text(text: &str) -> Program {
        let (words, names) = read(text.as_bytes()).expect("a sound text");
        Program { words, names, text: text.as_bytes().to_vec() }
    }
}
