//! What the analysis knows of a program before its first row: shapes, places and their lists.

use super::limits::*;
use super::program::{is_variable, variable, Program};
use super::unify::occurring;

/// "A shape is an atom with its variables renumbered by first appearance."
pub struct Shape {
    pub cells: Vec<u16>,
    pub variables: usize,
}

/// Place i of clause n: its i-th body atom.
pub struct Place {
    /// The clause, from 0, and the place, from 1.
    pub clause: usize,
    pub number: usize,
    pub shape: usize,
    /// The clause's variable that each variable of the shape is.
    pub renumbered: Vec<u8>,
    /// The list of the place as a mask.
    pub list: u16,
    /// What of the marks is still of use after this place: the next place's list, or the head's variables.
    pub kept: u16,
    pub is_last: bool,
}

impl Place {
    /// The marks on the clause's variables as marks on the shape's.
    pub fn to_shape(&self, marks: u16) -> u16 {
        let bit = |(v, w): (usize, &u8)| (marks >> w & 1) << v;
        self.renumbered.iter().enumerate().map(bit).fold(0, |mask, b| mask | b)
    }
}

pub struct Plan<'a> {
    pub program: &'a Program<'a>,
    pub shapes: Vec<Shape>,
    pub places: Vec<Place>,
    /// For each clause the index of its first place.
    pub first_places: Vec<usize>,
    /// For each predicate its clauses, its places and its shapes.
    pub clauses_of: Vec<Vec<usize>>,
    pub places_of: Vec<Vec<usize>>,
    pub shapes_of: Vec<Vec<usize>>,
}

impl<'a> Plan<'a> {
    pub fn new(program: &'a Program<'a>) -> Plan<'a> {
        let none = vec![Vec::new(); program.predicates.len()];
        let mut plan = Plan {
            program,
            shapes: Vec::new(),
            places: Vec::new(),
            first_places: Vec::new(),
            clauses_of: none.clone(),
            places_of: none.clone(),
            shapes_of: none,
        };
        plan.shape(program.cells(&program.goal));
        (0..program.clauses.len()).for_each(|n| plan.clause(n));
        plan
    }

    pub fn place_cells(&self, place: usize) -> &'a [u16] {
        let Place { clause, number, .. } = self.places[place];
        self.program.cells(&self.program.clauses[clause].body[number - 1])
    }

    pub fn head_cells(&self, clause: usize) -> &'a [u16] {
        self.program.cells(&self.program.clauses[clause].head)
    }

    fn clause(&mut self, n: usize) {
        let clause = &self.program.clauses[n];
        let head_cells = self.program.cells(&clause.head);
        let head = occurring(head_cells);
        self.clauses_of[usize::from(head_cells[0])].push(n);
        self.first_places.push(self.places.len());
        let lists = lists(head, &clause.body.iter().map(|a| occurring(self.program.cells(a))).collect::<Vec<_>>());
        for (i, atom) in clause.body.iter().enumerate() {
            let cells = self.program.cells(atom);
            let (shape, renumbered) = self.shape(cells);
            self.places_of[usize::from(cells[0])].push(self.places.len());
            self.places.push(Place {
                clause: n,
                number: i + 1,
                shape,
                renumbered,
                list: lists[i],
                kept: lists.get(i + 1).copied().unwrap_or(head),
                is_last: i + 1 == clause.body.len(),
            });
        }
    }

    /// The number of an atom's shape, "each distinct shape numbered once", and the renumbering.
    fn shape(&mut self, cells: &[u16]) -> (usize, Vec<u8>) {
        let mut renumbered: Vec<u8> = Vec::new();
        let mut shape = cells.to_vec();
        for cell in shape[1..].iter_mut().filter(|c| is_variable(**c)) {
            let v = variable(*cell) as u8;
            let at = renumbered.iter().position(|w| *w == v).unwrap_or_else(|| {
                renumbered.push(v);
                renumbered.len() - 1
            });
            *cell = FIRST_VARIABLE + at as u16;
        }
        let known = &mut self.shapes_of[usize::from(cells[0])];
        if let Some(same) = known.iter().find(|s| self.shapes[**s].cells == shape) {
            return (*same, renumbered);
        }
        known.push(self.shapes.len());
        self.shapes.push(Shape { cells: shape, variables: renumbered.len() });
        (self.shapes.len() - 1, renumbered)
    }
}

/// "The list of place i has the variables occurring both in the head or body atoms 1 to i-1, and in body
/// atoms i to m or the head."
fn lists(head: u16, body: &[u16]) -> Vec<u16> {
    (0..body.len())
        .map(|i| {
            let before = body[..i].iter().fold(head, |mask, atom| mask | atom);
            let after = body[i..].iter().fold(head, |mask, atom| mask | atom);
            before & after
        })
        .collect()
}
