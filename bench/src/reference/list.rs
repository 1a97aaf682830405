//! The lister: a program's table, one line for each shape and each row.

use super::analyse::analyse_plan;
use super::limits::*;
use super::plan::Plan;
use super::program::decode;
use super::token::{names, Name};
use super::write::{cells, number};
use super::{Fault, Reply};

/// Makes the table in lent words and lists it in lent bytes.
pub fn list(words: &[u16], name_bytes: &[u8], table: &mut [u16], out: &mut [u8]) -> Reply {
    table.fill(0);
    out.fill(0);
    match listing(words, name_bytes, table, out.len()) {
        Ok(listing) => {
            out[..listing.len()].copy_from_slice(&listing);
            Reply::accepted(listing.len())
        }
        Err(fault) => {
            table.fill(0);
            Reply::refused(fault)
        }
    }
}

fn listing(words: &[u16], name_bytes: &[u8], table: &mut [u16], room: usize) -> Result<Vec<u8>, Fault> {
    let program = decode(words)?;
    let names = names(name_bytes, program.predicates.len(), program.functions.len())?;
    let plan = Plan::new(&program);
    let reply = analyse_plan(&plan, table);
    if reply.number != 0 {
        return Err((reply.number, reply.place));
    }
    let mut text = b"modes\t1\n".to_vec();
    shape_lines(&mut text, &plan, &names);
    for row in table.chunks_exact(ROW_WORDS).take(reply.count) {
        row_line(&mut text, &plan, row);
    }
    number(&mut text, b"end\t", reply.count);
    text.push(b'\n');
    if text.len() > room {
        return Err((9, room));
    }
    Ok(text)
}

fn shape_lines(text: &mut Vec<u8>, plan: &Plan, names: &[Name]) {
    for (i, shape) in plan.shapes.iter().enumerate() {
        number(text, b"shape\t", i);
        cells(text, plan.program.predicates.len(), names, &shape.cells, 0);
        text.push(b'\n');
    }
}

fn row_line(text: &mut Vec<u8>, plan: &Plan, row: &[u16]) {
    let [round, kind, a, b, mask] = row.try_into().expect("five words");
    let keyword: &[u8] = match kind {
        CALL => b"call\t",
        CONT => b"cont\t",
        _ => b"sol\t",
    };
    number(text, keyword, usize::from(round));
    number(text, b"\t", usize::from(a));
    let variables = if kind == CONT {
        number(text, b".", usize::from(b));
        plan.places[plan.first_places[usize::from(a) - 1] + usize::from(b) - 1].list
    } else {
        ((1u32 << plan.shapes[usize::from(a)].variables) - 1) as u16
    };
    text.push(b'\t');
    letters(text, variables, mask);
    text.push(b'\n');
}

/// "`g` or `a` for each variable of the shape (or list) in order, `-` for none."
fn letters(text: &mut Vec<u8>, variables: u16, mask: u16) {
    if variables == 0 {
        text.push(b'-');
    }
    for v in super::unify::bits(variables) {
        text.push(if mask >> v & 1 == 1 { b'g' } else { b'a' });
    }
}
