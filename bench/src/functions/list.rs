//! The mode table of an encoded program with its names, and its listing.

use super::{archive, replied, told, Call, Function, Given};
use crate::reference::limits::*;
use crate::{native, reference};

pub const LIST: Function = Function {
    name: "list",
    replies: &[0, 1, 2, 3, 4, 5, 6, 7, 8, 9, 12],
    given: |program| Given { words: program.words.clone(), bytes: program.names.clone() },
    enough: (ROWS * ROW_WORDS, 3 * LISTING_BYTES),
    reference: |given, lent| replied(reference::list(&given.words, &given.bytes, lent.words, lent.bytes)),
    native: |given, lent| {
        told(|place, count| native::threadknoll::threadknoll_list(&given.words, &given.bytes, lent.words, lent.bytes, place, count))
    },
    archive: archive!(|given, lent| {
        let (words, names, table, out) = (&given.words, &given.bytes, lent.words, lent.bytes);
        let (w, n, t, o) = (words.len(), names.len(), table.len(), out.len());
        // Slices that live as long as the call, with their true lengths.
        told(|place, count| unsafe {
            threadknoll_list(words.as_ptr(), w, names.as_ptr(), n, table.as_mut_ptr(), t, out.as_mut_ptr(), o, place, count)
        })
    }),
};

#[cfg(archive)]
extern "C" {
    fn threadknoll_list(
        words: *const u16, words_length: usize,
        names: *const u8, names_length: usize,
        table: *mut u16, table_length: usize,
        out: *mut u8, out_length: usize,
        place: *mut usize, count: *mut usize,
    ) -> u16;
}
