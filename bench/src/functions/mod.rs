//! The public functions, one file for each: how it is called in each implementation, and which numbers it replies with.

mod analyse;
mod list;
mod read;
mod write;

use crate::program::Program;
use crate::reference::Reply;

/// All that are compared and measured.
pub const FUNCTIONS: [&Function; 4] = [&READ, &ANALYSE, &LIST, &WRITE];

pub use analyse::ANALYSE;
pub use list::LIST;
pub use read::READ;
pub use write::WRITE;

/// Number, place, count.
pub type Answer = [u64; 3];

/// What a function is given, each function taking what it needs.
#[derive(Clone, Default)]
pub struct Given {
    pub words: Vec<u16>,
    /// A text, or names.
    pub bytes: Vec<u8>,
}

/// The rooms that it is lent.
pub struct Lent<'a> {
    pub words: &'a mut [u16],
    pub bytes: &'a mut [u8],
}

pub type Call = fn(&Given, Lent) -> Answer;

pub struct Function {
    pub name: &'static str,
    /// The numbers that can come.
    pub replies: &'static [u16],
    /// What it is given of a program.
    pub given: fn(&Program) -> Given,
    /// Rooms that are enough for every program: words, bytes.
    pub enough: (usize, usize),
    pub reference: Call,
    pub native: Call,
    /// Where the archive is linked.
    pub archive: Option<Call>,
}

impl Function {
    /// The library's code by name: compiled by Rust, and from the archive where it is linked.
    pub fn library(&self) -> Vec<(&'static str, Call)> {
        let archive = self.archive.map(|call| ("archive", call));
        [("native", self.native)].into_iter().chain(archive).collect()
    }

    /// The reference, and behind it the library's code.
    pub fn implementations(&self) -> Vec<(&'static str, Call)> {
        [("reference", self.reference)].into_iter().chain(self.library()).collect()
    }
}

/// What the reference answers.
fn replied(reply: Reply) -> Answer {
    [u64::from(reply.number), reply.place as u64, reply.count as u64]
}

/// What a call that is told where to put place and count answers.
fn told(call: impl FnOnce(&mut usize, &mut usize) -> u16) -> Answer {
    // No place and no count of document 01: seen where the library writes none.
    let (mut place, mut count) = (usize::MAX, usize::MAX);
    let number = call(&mut place, &mut count);
    [u64::from(number), place as u64, count as u64]
}

/// The archive's function, where it is linked.
macro_rules! archive {
    ($call:expr) => {{
        #[cfg(archive)]
        let call: Option<Call> = Some($call);
        #[cfg(not(archive))]
        let call: Option<Call> = None;
        call
    }};
}
use archive;

#[cfg(test)]
mod tests {
    use crate::native::threadknoll::*;
    use crate::reference::limits::*;

    #[test]
    fn the_limits_are_those_of_the_document() {
        assert_eq!(threadknoll_max_text(), TEXT_BYTES);
        assert_eq!(threadknoll_max_words(), WORDS);
        assert_eq!(threadknoll_max_names(), NAME_BYTES * (PREDICATES + FUNCTIONS));
        assert_eq!(threadknoll_max_rows(), ROWS);
    }
}
