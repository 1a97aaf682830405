//! Document 01 in plain Rust, written from the document alone: the yardstick for answers and for speed.

pub mod analyse;
pub mod limits;
pub mod list;
#[cfg(test)]
mod literal;
pub mod masks;
pub mod plan;
pub mod program;
pub mod read;
pub mod token;
pub mod unify;
pub mod write;

pub use analyse::analyse;
pub use list::list;
pub use read::read_into;
pub use write::write_into;

/// Why an input is refused: the number and the place of document 01's table.
pub type Fault = (u16, usize);

/// "A reply is a number, a place, and a count of what was written."
#[derive(Clone, Copy, Debug, PartialEq, Eq)]
pub struct Reply {
    pub number: u16,
    pub place: usize,
    pub count: usize,
}

impl Reply {
    pub fn accepted(count: usize) -> Reply {
        Reply { number: 0, place: 0, count }
    }

    pub fn refused((number, place): Fault) -> Reply {
        Reply { number, place, count: 0 }
    }
}

/// What `modes` prints for a text.
pub fn modes(text: &[u8]) -> Vec<u8> {
    let listed = read::read(text).and_then(|(words, names)| {
        let mut table = vec![0; limits::ROWS * limits::ROW_WORDS];
        let mut out = vec![0; limits::LISTING_BYTES];
        let reply = list(&words, &names, &mut table, &mut out);
        out.truncate(reply.count);
        if reply.number == 0 { Ok(out) } else { Err((reply.number, reply.place)) }
    });
    listed.unwrap_or_else(|(number, place)| format!("refused\t{number}\t{place}\n").into_bytes())
}
