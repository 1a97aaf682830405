//! From a scenario text to an encoded program with its names.

use super::{archive, replied, told, Call, Function, Given};
use crate::reference::limits::*;
use crate::{native, reference};

pub const READ: Function = Function {
    name: "read",
    replies: &[0, 1, 2, 3, 4, 5, 7, 8, 9, 11, 12, 13],
    given: |program| Given { bytes: program.text.clone(), ..Given::default() },
    enough: (WORDS, NAME_BYTES * (PREDICATES + FUNCTIONS)),
    reference: |given, lent| replied(reference::read_into(&given.bytes, lent.words, lent.bytes)),
    native: |given, lent| {
        told(|place, count| native::threadknoll::threadknoll_read(&given.bytes, lent.words, lent.bytes, place, count))
    },
    archive: archive!(|given, lent| {
        let (text, words, names) = (&given.bytes, lent.words, lent.bytes);
        let (t, w, n) = (text.len(), words.len(), names.len());
        // Slices that live as long as the call, with their true lengths.
        told(|place, count| unsafe {
            threadknoll_read(text.as_ptr(), t, words.as_mut_ptr(), w, names.as_mut_ptr(), n, place, count)
        })
    }),
};

#[cfg(archive)]
extern "C" {
    fn threadknoll_read(
        text: *const u8, text_length: usize,
        words: *mut u16, words_length: usize,
        names: *mut u8, names_length: usize,
        place: *mut usize, count: *mut usize,
    ) -> u16;
}
