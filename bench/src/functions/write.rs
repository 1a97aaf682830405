//! From an encoded program with its names back to the scenario text.

use super::{archive, replied, told, Call, Function, Given};
use crate::reference::limits::*;
use crate::{native, reference};

pub const WRITE: Function = Function {
    name: "write",
    replies: &[0, 1, 2, 3, 4, 5, 6, 7, 8, 9, 12],
    given: |program| Given { words: program.words.clone(), bytes: program.names.clone() },
    enough: (0, TEXT_BYTES),
    reference: |given, lent| replied(reference::write_into(&given.words, &given.bytes, lent.bytes)),
    native: |given, lent| {
        told(|place, count| native::threadknoll::threadknoll_write(&given.words, &given.bytes, lent.bytes, place, count))
    },
    archive: archive!(|given, lent| {
        let (words, names, text) = (&given.words, &given.bytes, lent.bytes);
        let (w, n, t) = (words.len(), names.len(), text.len());
        // Slices that live as long as the call, with their true lengths.
        told(|place, count| unsafe {
            threadknoll_write(words.as_ptr(), w, names.as_ptr(), n, text.as_mut_ptr(), t, place, count)
        })
    }),
};

#[cfg(archive)]
extern "C" {
    fn threadknoll_write(
        words: *const u16, words_length: usize,
        names: *const u8, names_length: usize,
        text: *mut u8, text_length: usize,
        place: *mut usize, count: *mut usize,
    ) -> u16;
}
