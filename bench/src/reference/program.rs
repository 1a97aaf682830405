//! The encoded program: its faults from left to right, and where each atom stands.

use super::limits::*;
use super::Fault;
use std::ops::Range;

/// The words of an atom's cells.
pub type Atom = Range<usize>;

pub struct Clause {
    pub head: Atom,
    pub body: Vec<Atom>,
}

pub struct Program<'a> {
    pub words: &'a [u16],
    pub predicates: &'a [u16],
    pub functions: &'a [u16],
    pub clauses: Vec<Clause>,
    pub goal: Atom,
    /// The goal's modes as a mask.
    pub goal_mask: u16,
}

impl Program<'_> {
    pub fn cells(&self, atom: &Atom) -> &[u16] {
        &self.words[atom.clone()]
    }
}

pub fn is_variable(cell: u16) -> bool {
    cell >= FIRST_VARIABLE
}

pub fn variable(cell: u16) -> usize {
    usize::from(cell - FIRST_VARIABLE)
}

/// The first fault of the words.
pub fn faults(words: &[u16]) -> Option<Fault> {
    decode(words).err()
}

pub fn decode(words: &[u16]) -> Result<Program<'_>, Fault> {
    if words.len() > WORDS {
        return Err((8, WORDS));
    }
    let mut scan = Scan { words, at: 0, predicates: &[], functions: &[] };
    let predicate_count = scan.number(1, PREDICATES)?;
    let function_count = scan.number(0, FUNCTIONS)?;
    let clause_count = scan.number(0, CLAUSES)?;
    scan.predicates = scan.arities(predicate_count)?;
    scan.functions = scan.arities(function_count)?;
    let clauses = (0..clause_count).map(|_| scan.clause()).collect::<Result<Vec<_>, _>>()?;
    let mut met = 0;
    let goal = scan.atom(&mut met)?;
    let goal_mask = scan.modes(met)?;
    if scan.at < words.len() {
        return Err((7, scan.at));
    }
    let Scan { predicates, functions, .. } = scan;
    Ok(Program { words, predicates, functions, clauses, goal, goal_mask })
}

struct Scan<'a> {
    words: &'a [u16],
    at: usize,
    predicates: &'a [u16],
    functions: &'a [u16],
}

impl<'a> Scan<'a> {
    /// The word at the reading place, which stays.
    fn peek(&self) -> Result<u16, Fault> {
        self.words.get(self.at).copied().ok_or((1, self.words.len()))
    }

    /// A count or an arity.
    fn number(&mut self, least: usize, most: usize) -> Result<usize, Fault> {
        let number = usize::from(self.peek()?);
        if number < least || number > most {
            return Err((2, self.at));
        }
        self.at += 1;
        Ok(number)
    }

    fn arities(&mut self, count: usize) -> Result<&'a [u16], Fault> {
        let from = self.at;
        for _ in 0..count {
            self.number(0, ARITY)?;
        }
        Ok(&self.words[from..self.at])
    }

    fn clause(&mut self) -> Result<Clause, Fault> {
        let length = self.number(0, BODY)?;
        let mut met = 0;
        let head = self.atom(&mut met)?;
        let body = (0..length).map(|_| self.atom(&mut met)).collect::<Result<Vec<_>, _>>()?;
        Ok(Clause { head, body })
    }

    /// One atom; `met` is how many variables were met in its clause so far.
    fn atom(&mut self, met: &mut usize) -> Result<Atom, Fault> {
        let from = self.at;
        let mut missing = 1;
        while missing > 0 {
            let cell = self.peek()?;
            if self.at - from == CELLS {
                return Err((5, self.at));
            }
            let arity = if self.at == from {
                self.predicates.get(usize::from(cell)).ok_or((3, self.at))?
            } else if is_variable(cell) {
                if variable(cell) >= VARIABLES || variable(cell) > *met {
                    return Err((4, self.at));
                }
                *met = (*met).max(variable(cell) + 1);
                &0
            } else {
                self.functions.get(usize::from(cell)).ok_or((3, self.at))?
            };
            missing += usize::from(*arity);
            missing -= 1;
            self.at += 1;
        }
        Ok(from..self.at)
    }

    /// The goal's variable count, then its modes.
    fn modes(&mut self, met: usize) -> Result<u16, Fault> {
        if usize::from(self.peek()?) != met {
            return Err((6, self.at));
        }
        self.at += 1;
        let mut mask = 0;
        for v in 0..met {
            match self.peek()? {
                0 => {}
                1 => mask |= 1 << v,
                _ => return Err((6, self.at)),
            }
            self.at += 1;
        }
        Ok(mask)
    }
}
