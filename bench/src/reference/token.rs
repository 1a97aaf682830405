//! Names, numbers and tokens of a scenario text.

use super::limits::*;
use super::Fault;

/// "Each name is kept as 16 bytes, padded with zeros."
pub type Name = [u8; NAME_BYTES];

pub enum Token {
    Name(Name),
    /// A variable with its number, held at `u32::MAX` where it is larger, and whether `G` marks it.
    Variable { number: u32, ground: bool },
}

fn is_name(bytes: &[u8]) -> bool {
    bytes.len() <= NAME_BYTES
        && bytes.first().is_some_and(u8::is_ascii_lowercase)
        && bytes.iter().all(|b| b.is_ascii_lowercase() || b.is_ascii_digit() || *b == b'_')
}

pub fn name(bytes: &[u8]) -> Option<Name> {
    is_name(bytes).then(|| {
        let mut name = [0; NAME_BYTES];
        name[..bytes.len()].copy_from_slice(bytes);
        name
    })
}

/// The bytes of a kept name before its padding.
pub fn unpadded(name: &Name) -> &[u8] {
    let length = name.iter().position(|b| *b == 0).unwrap_or(NAME_BYTES);
    &name[..length]
}

/// A number without leading zero, of any size.
pub fn number(bytes: &[u8]) -> Option<u32> {
    if bytes.is_empty() || (bytes[0] == b'0' && bytes.len() > 1) {
        return None;
    }
    bytes.iter().try_fold(0u32, |sum, b| {
        b.is_ascii_digit().then(|| sum.saturating_mul(10).saturating_add(u32::from(b - b'0')))
    })
}

/// A token of a clause or query line, if it is well formed.
pub fn token(bytes: &[u8], in_query: bool) -> Option<Token> {
    match bytes.first()? {
        b'V' => Some(Token::Variable { number: number(&bytes[1..])?, ground: false }),
        b'G' if in_query => Some(Token::Variable { number: number(&bytes[1..])?, ground: true }),
        _ => name(bytes).map(Token::Name),
    }
}

/// The names of a program's symbols, checked: their length, then each in turn.
pub fn names(bytes: &[u8], predicates: usize, functions: usize) -> Result<Vec<Name>, Fault> {
    let length = NAME_BYTES * (predicates + functions);
    if bytes.len() < length {
        return Err((1, bytes.len()));
    }
    if bytes.len() > length {
        return Err((7, length));
    }
    let mut names: Vec<Name> = Vec::with_capacity(predicates + functions);
    for (i, chunk) in bytes.chunks_exact(NAME_BYTES).enumerate() {
        let name: Name = chunk.try_into().expect("16 bytes");
        let kind = if i < predicates { 0 } else { predicates };
        let well_formed = is_name(unpadded(&name)) && padded_with_zeros(&name);
        if !well_formed || names[kind..].contains(&name) {
            return Err((12, NAME_BYTES * i));
        }
        names.push(name);
    }
    Ok(names)
}

fn padded_with_zeros(name: &Name) -> bool {
    name[unpadded(name).len()..].iter().all(|b| *b == 0)
}
