//! The mode table of an encoded program.

use super::{archive, replied, told, Call, Function, Given};
use crate::reference::limits::*;
use crate::{native, reference};

pub const ANALYSE: Function = Function {
    name: "analyse",
    replies: &[0, 1, 2, 3, 4, 5, 6, 7, 8, 9],
    given: |program| Given { words: program.words.clone(), ..Given::default() },
    enough: (ROWS * ROW_WORDS, 0),
    reference: |given, lent| replied(reference::analyse(&given.words, lent.words)),
    native: |given, lent| told(|place, count| native::threadknoll::threadknoll_analyse(&given.words, lent.words, place, count)),
    archive: archive!(|given, lent| {
        let (words, table) = (&given.words, lent.words);
        let (w, t) = (words.len(), table.len());
        // Slices that live as long as the call, with their true lengths.
        told(|place, count| unsafe { threadknoll_analyse(words.as_ptr(), w, table.as_mut_ptr(), t, place, count) })
    }),
};

#[cfg(archive)]
extern "C" {
    fn threadknoll_analyse(
        words: *const u16, words_length: usize,
        table: *mut u16, table_length: usize,
        place: *mut usize, count: *mut usize,
    ) -> u16;
}
