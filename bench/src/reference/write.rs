//! The writer: from an encoded program with names back to scenario text.

use super::program::{decode, is_variable, variable, Atom, Program};
use super::token::{names, unpadded, Name};
use super::{Fault, Reply};
use std::io::Write;

/// The text of a sound program with sound names.
pub fn write(words: &[u16], name_bytes: &[u8]) -> Result<Vec<u8>, Fault> {
    let program = decode(words)?;
    let names = names(name_bytes, program.predicates.len(), program.functions.len())?;
    let (predicates, functions) = names.split_at(program.predicates.len());
    let mut text = Vec::new();
    declarations(&mut text, b"pred", predicates, program.predicates);
    declarations(&mut text, b"func", functions, program.functions);
    for clause in &program.clauses {
        text.extend_from_slice(b"clause");
        atom(&mut text, &program, &names, &clause.head, 0);
        clause.body.iter().for_each(|a| atom(&mut text, &program, &names, a, 0));
        text.push(b'\n');
    }
    text.extend_from_slice(b"query");
    atom(&mut text, &program, &names, &program.goal, program.goal_mask);
    text.push(b'\n');
    Ok(text)
}

/// The writer over lent bytes.
pub fn write_into(words: &[u16], name_bytes: &[u8], text: &mut [u8]) -> Reply {
    text.fill(0);
    match write(words, name_bytes) {
        Err(fault) => Reply::refused(fault),
        Ok(written) if written.len() > text.len() => Reply::refused((9, text.len())),
        Ok(written) => {
            text[..written.len()].copy_from_slice(&written);
            Reply::accepted(written.len())
        }
    }
}

fn declarations(text: &mut Vec<u8>, keyword: &[u8], names: &[Name], arities: &[u16]) {
    for (name, arity) in names.iter().zip(arities) {
        text.extend_from_slice(keyword);
        text.push(b'\t');
        text.extend_from_slice(unpadded(name));
        number(text, b"\t", usize::from(*arity));
        text.push(b'\n');
    }
}

fn atom(text: &mut Vec<u8>, program: &Program, names: &[Name], atom: &Atom, ground: u16) {
    cells(text, program.predicates.len(), names, program.cells(atom), ground);
}

/// An atom's cells, a tab before each; `G` for the variables of `ground`.
pub fn cells(text: &mut Vec<u8>, predicates: usize, names: &[Name], cells: &[u16], ground: u16) {
    for (i, &cell) in cells.iter().enumerate() {
        if is_variable(cell) {
            let marked = ground >> variable(cell) & 1 == 1;
            number(text, if marked { b"\tG" } else { b"\tV" }, variable(cell));
        } else {
            let symbol = usize::from(cell) + if i == 0 { 0 } else { predicates };
            text.push(b'\t');
            text.extend_from_slice(unpadded(&names[symbol]));
        }
    }
}

/// What stands before a number, then the number.
pub fn number(text: &mut Vec<u8>, before: &[u8], number: usize) {
    text.extend_from_slice(before);
    if number < 10 {
        text.push(b'0' + number as u8);
    } else {
        write!(text, "{number}").expect("a vector takes all");
    }
}
