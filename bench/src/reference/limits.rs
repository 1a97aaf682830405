//! The numbers of document 01.

pub const PREDICATES: usize = 64;
pub const FUNCTIONS: usize = 64;
pub const CLAUSES: usize = 64;
pub const ARITY: usize = 8;
pub const BODY: usize = 16;
pub const CELLS: usize = 32;
pub const VARIABLES: usize = 16;
pub const WORDS: usize = 2048;
pub const TEXT_BYTES: usize = 40_960;
pub const NAME_BYTES: usize = 16;
pub const ROWS: usize = 4096;
pub const ROW_WORDS: usize = 5;
/// The room that `modes` has for its listing.
pub const LISTING_BYTES: usize = 65_536;

/// The cell of variable v is FIRST_VARIABLE + v.
pub const FIRST_VARIABLE: u16 = 32_768;

pub const CALL: u16 = 1;
pub const CONT: u16 = 2;
pub const SOLUTION: u16 = 3;
