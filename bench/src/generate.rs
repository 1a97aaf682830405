//! Sound programs of all sizes, with their names.

use crate::random::Random;
use crate::reference::limits::*;

/// A sound program with its names.
pub struct Sound {
    pub words: Vec<u16>,
    pub names: Vec<u8>,
}

/// How large a random program gets, and how often an argument is a variable.
pub struct Size {
    pub predicates: usize,
    pub functions: usize,
    pub clauses: usize,
    pub body: usize,
    pub least_arity: usize,
    pub arity: usize,
    pub variables: usize,
    /// Of eight arguments so many are variables.
    pub variables_in_eight: usize,
}

/// Sizes from a handful of words to all that the limits allow.
pub fn size(random: &mut Random) -> Size {
    let scale = random.pick(&[1, 2, 2, 3, 3, 4, 8, 16, 64]);
    let at_most = |limit: usize| limit.min(scale);
    let clauses = random.between(0, at_most(CLAUSES));
    // Few predicates for the clauses there are, so that most calls find one; now and then any number.
    let predicates = if random.once_in(8) { at_most(PREDICATES) } else { 1 + clauses / 4 };
    Size {
        predicates: random.between(1, predicates),
        functions: random.between(0, at_most(FUNCTIONS)),
        clauses,
        body: random.between(0, at_most(BODY)),
        least_arity: 0,
        arity: random.between(0, at_most(ARITY)),
        variables: random.between(1, (2 * scale).min(VARIABLES)),
        variables_in_eight: random.between(2, 8),
    }
}

/// A random sound program of at most this size, within document 01's limits.
pub fn sound(random: &mut Random, size: &Size) -> Sound {
    let arities = |random: &mut Random, count, least| -> Vec<u16> {
        (0..count).map(|_| random.between(least, size.arity) as u16).collect()
    };
    let predicates = arities(random, size.predicates, size.least_arity);
    let mut functions = arities(random, size.functions, 0);
    if let Some(first) = functions.first_mut() {
        *first = 0;
    }
    let mut maker = Maker { random, size, predicates: &predicates, functions: &functions };
    let goal = maker.goal();
    let mut room = WORDS - 3 - predicates.len() - functions.len() - goal.len();
    let mut clauses = Vec::new();
    while clauses.len() < size.clauses {
        let clause = maker.clause();
        if clause.len() > room {
            break;
        }
        room -= clause.len();
        clauses.push(clause);
    }
    let counts = [predicates.len() as u16, functions.len() as u16, clauses.len() as u16];
    let words = [&counts[..], &predicates, &functions, &clauses.concat(), &goal].concat();
    let names = [names(random, predicates.len()), names(random, functions.len())].concat();
    Sound { words, names }
}

/// Sound words with some names.
pub fn named(words: Vec<u16>) -> Sound {
    let random = &mut Random::new(u64::from(words[0]));
    let names = [words[0], words[1]].map(|count| names(random, usize::from(count))).concat();
    Sound { words, names }
}

struct Maker<'a> {
    random: &'a mut Random,
    size: &'a Size,
    predicates: &'a [u16],
    functions: &'a [u16],
}

impl Maker<'_> {
    fn clause(&mut self) -> Vec<u16> {
        let body = self.random.between(0, self.size.body);
        let mut clause = vec![body as u16];
        let mut order = Vec::new();
        (0..=body).for_each(|_| self.atom(&mut clause, &mut order));
        clause
    }

    fn goal(&mut self) -> Vec<u16> {
        let mut goal = Vec::new();
        let mut order = Vec::new();
        self.atom(&mut goal, &mut order);
        goal.push(order.len() as u16);
        (0..order.len()).for_each(|_| goal.push(self.random.below(2) as u16));
        goal
    }

    /// An atom after the others; `order` has the variables met, in the order of their numbers.
    fn atom(&mut self, to: &mut Vec<u16>, order: &mut Vec<usize>) {
        let predicate = self.random.below(self.predicates.len());
        to.push(predicate as u16);
        let mut missing = usize::from(self.predicates[predicate]);
        let mut left = CELLS - 1 - missing;
        while missing > 0 {
            missing -= 1;
            let arity = self.cell(to, order, left);
            missing += arity;
            left -= arity;
        }
    }

    /// A cell whose arguments have at most `left` cells; how many it has.
    fn cell(&mut self, to: &mut Vec<u16>, order: &mut Vec<usize>, left: usize) -> usize {
        if !self.functions.is_empty() && self.random.below(8) >= self.size.variables_in_eight {
            let function = self.random.below(self.functions.len());
            // The first function is a constant: it stands in where there is no room.
            let function = if usize::from(self.functions[function]) > left { 0 } else { function };
            to.push(function as u16);
            return usize::from(self.functions[function]);
        }
        let variable = self.random.below(self.size.variables);
        let number = order.iter().position(|v| *v == variable).unwrap_or_else(|| {
            order.push(variable);
            order.len() - 1
        });
        to.push(FIRST_VARIABLE + number as u16);
        0
    }
}

/// So many distinct names, some as long as they may be.
fn names(random: &mut Random, count: usize) -> Vec<u8> {
    let mut names: Vec<[u8; NAME_BYTES]> = Vec::new();
    while names.len() < count {
        let length = random.pick(&[1, 1, 2, 3, 8, 15, NAME_BYTES]);
        let mut name = [0; NAME_BYTES];
        name[0] = b'a' + random.below(26) as u8;
        for byte in &mut name[1..length] {
            *byte = random.pick(b"abcxyz019_");
        }
        if !names.contains(&name) {
            names.push(name);
        }
    }
    names.concat()
}
