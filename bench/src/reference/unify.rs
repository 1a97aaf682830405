//! Unification of two atoms, and the marks that pass through their most general unifier.

use super::limits::*;
use super::program::{is_variable, variable};

/// A set of variables of both atoms: bit v is A's variable v, bit 16 + v is B's.
type Variables = u32;

/// Two unified atoms: for each variable, the unbound variables in what it stands for.
#[derive(Clone)]
pub struct Unified {
    a: Side,
    b: Side,
}

#[derive(Clone)]
struct Side {
    /// The variables that occur in this atom.
    occurring: u16,
    stands_for: [Variables; VARIABLES],
}

impl Unified {
    /// The marks that pass from A with `mask` to B with none.
    pub fn to_b(&self, mask: u16) -> u16 {
        pass(&self.a, mask, &self.b)
    }

    /// The marks that pass from B with `mask` to A with none.
    pub fn to_a(&self, mask: u16) -> u16 {
        pass(&self.b, mask, &self.a)
    }
}

/// "A variable of B is marked in the result if all variables in what it stands for are known ground."
fn pass(from: &Side, mask: u16, to: &Side) -> u16 {
    let mut known: Variables = 0;
    for v in bits(mask & from.occurring) {
        known |= from.stands_for[v];
    }
    let mut marked = 0;
    for v in bits(to.occurring) {
        if to.stands_for[v] & !known == 0 {
            marked |= 1 << v;
        }
    }
    marked
}

/// The numbers of the bits that are set.
pub fn bits(mut mask: u16) -> impl Iterator<Item = usize> {
    std::iter::from_fn(move || {
        let v = mask.trailing_zeros() as usize;
        mask &= mask.wrapping_sub(1);
        (v < VARIABLES).then_some(v)
    })
}

/// The variables of a run of cells.
pub fn occurring(cells: &[u16]) -> u16 {
    cells[1..].iter().filter(|c| is_variable(**c)).fold(0, |mask, c| mask | 1 << variable(*c))
}

/// Unifies two atoms whose functions have these arities; their variables are kept apart.
pub fn unify(a: &[u16], b: &[u16], arities: &[u16]) -> Option<Unified> {
    if a[0] != b[0] {
        return None;
    }
    let mut store = Store { atoms: [a, b], arities, bound: [None; 2 * VARIABLES] };
    let (mut x, mut y) = (1, 1);
    while x < a.len() {
        if !store.unify((0, x), (1, y)) {
            return None;
        }
        x = store.end((0, x));
        y = store.end((1, y));
    }
    Some(Unified { a: store.side(0), b: store.side(1) })
}

/// A term: which atom it stands in, and where it begins.
type Term = (usize, usize);

struct Store<'a> {
    atoms: [&'a [u16]; 2],
    arities: &'a [u16],
    /// For each variable the term that it stands for as written.
    bound: [Option<Term>; 2 * VARIABLES],
}

impl Store<'_> {
    fn cell(&self, (atom, at): Term) -> u16 {
        self.atoms[atom][at]
    }

    /// Where the term's cells end.
    fn end(&self, (atom, mut at): Term) -> usize {
        let mut missing = 1;
        while missing > 0 {
            let cell = self.atoms[atom][at];
            missing += if is_variable(cell) { 0 } else { usize::from(self.arities[usize::from(cell)]) };
            missing -= 1;
            at += 1;
        }
        at
    }

    /// The variable that the term is, if it is one.
    fn index(&self, term: Term) -> Option<usize> {
        let cell = self.cell(term);
        is_variable(cell).then(|| VARIABLES * term.0 + variable(cell))
    }

    /// Follows bound variables to an unbound one or a function.
    fn follow(&self, mut term: Term) -> Term {
        while let Some(next) = self.index(term).and_then(|v| self.bound[v]) {
            term = next;
        }
        term
    }

    fn unify(&mut self, x: Term, y: Term) -> bool {
        let (x, y) = (self.follow(x), self.follow(y));
        match (self.index(x), self.index(y)) {
            (Some(v), Some(w)) if v == w => true,
            (Some(v), _) => self.bind(v, y),
            (_, Some(w)) => self.bind(w, x),
            (None, None) => self.cell(x) == self.cell(y) && self.arguments(x, y),
        }
    }

    fn arguments(&mut self, mut x: Term, mut y: Term) -> bool {
        let count = self.arities[usize::from(self.cell(x))];
        x.1 += 1;
        y.1 += 1;
        for _ in 0..count {
            if !self.unify(x, y) {
                return false;
            }
            x.1 = self.end(x);
            y.1 = self.end(y);
        }
        true
    }

    /// Binds an unbound variable to a term that is not itself, unless it occurs there.
    fn bind(&mut self, v: usize, term: Term) -> bool {
        if self.variables(term) >> v & 1 == 1 {
            return false;
        }
        self.bound[v] = Some(term);
        true
    }

    /// The unbound variables in what the term stands for.
    fn variables(&self, term: Term) -> Variables {
        let (mut unbound, mut seen) = (0, 0);
        self.collect(term, &mut unbound, &mut seen);
        unbound
    }

    fn collect(&self, term: Term, unbound: &mut Variables, seen: &mut Variables) {
        for at in term.1..self.end(term) {
            if let Some(v) = self.index((term.0, at)) {
                if *seen >> v & 1 == 0 {
                    *seen |= 1 << v;
                    match self.bound[v] {
                        Some(next) => self.collect(next, unbound, seen),
                        None => *unbound |= 1 << v,
                    }
                }
            }
        }
    }

    fn side(&self, atom: usize) -> Side {
        let cells = self.atoms[atom];
        let mut side = Side { occurring: 0, stands_for: [0; VARIABLES] };
        for at in 1..cells.len() {
            if is_variable(cells[at]) && side.occurring >> variable(cells[at]) & 1 == 0 {
                side.occurring |= 1 << variable(cells[at]);
                side.stands_for[variable(cells[at])] = self.variables((atom, at));
            }
        }
        side
    }
}
