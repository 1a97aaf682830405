//! The mode analysis: round by round, from what is new since the round before.
//!
//! Every rule is a flow of masks from one set to another. The marks that solutions pass to a body atom, the
//! marks that result on a head, and those that heads pass back to a shape are kept once each, so that rules 2
//! and 3 are joins: the unions of two sets of masks, in which each pair is met once.

use super::limits::*;
use super::masks::{Join, Masks};
use super::plan::Plan;
use super::program::decode;
use super::unify::{unify, Unified};
use super::Reply;

/// Round, kind, a, b, mask.
pub type Row = [u16; ROW_WORDS];

/// The table of an encoded program in lent words.
pub fn analyse(words: &[u16], table: &mut [u16]) -> Reply {
    match decode(words) {
        Ok(program) => analyse_plan(&Plan::new(&program), table),
        Err(fault) => {
            table.fill(0);
            Reply::refused(fault)
        }
    }
}

pub fn analyse_plan(plan: &Plan, table: &mut [u16]) -> Reply {
    table.fill(0);
    let room = (table.len() / ROW_WORDS).min(ROWS);
    match rows(plan, room) {
        Err(Full) => Reply::refused((9, room)),
        Ok(rows) => {
            table.chunks_exact_mut(ROW_WORDS).zip(&rows).for_each(|(to, row)| to.copy_from_slice(row));
            Reply::accepted(rows.len())
        }
    }
}

/// There are more rows than room.
pub struct Full;

/// All rows in order, if there is room for them.
pub fn rows(plan: &Plan, room: usize) -> Result<Vec<Row>, Full> {
    let mut analysis = Analysis::new(plan, room);
    analysis.run()?;
    Ok(analysis.rows)
}

/// A shape that was called and unifies with a clause's head.
struct Caller {
    shape: usize,
    /// The shape is A, the head B.
    unified: Unified,
    /// How many of the head's masks were passed back to the shape.
    passed_back: usize,
}

/// A place whose atom unifies with a shape that has a solution.
struct Waiting {
    place: usize,
    /// The shape is A, the place's atom B.
    unified: Unified,
}

pub struct Analysis<'a> {
    plan: &'a Plan<'a>,
    room: usize,
    round: u16,
    pub rows: Vec<Row>,
    /// The masks of the rows: calls and solutions by shape, conts by place.
    calls: Vec<Masks>,
    conts: Vec<Masks>,
    solutions: Vec<Masks>,
    /// By clause, and for each shape that was called where it stands there: clause and index.
    callers: Vec<Vec<Caller>>,
    called: Vec<Option<Vec<(usize, usize)>>>,
    /// By shape, once it has a solution.
    waiting: Vec<Option<Vec<Waiting>>>,
    /// Rule 2, by place: the cont rows, and the marks that solutions pass to the place's atom.
    bodies: Vec<Join>,
    /// The marks that result on each clause's head.
    heads: Vec<Masks>,
    /// Rule 3, by shape: the call rows, and the marks that heads pass to the shape.
    returns: Vec<Join>,
    /// What has something new in this round.
    new_places: Vec<usize>,
    new_heads: Vec<usize>,
    new_shapes: Vec<usize>,
    /// What it cost: pairs of masks joined, and pairs of atoms unified.
    pub pairs: usize,
    pub unifications: usize,
}

impl<'a> Analysis<'a> {
    pub fn new(plan: &'a Plan<'a>, room: usize) -> Self {
        let (shapes, places, clauses) = (plan.shapes.len(), plan.places.len(), plan.first_places.len());
        Analysis {
            plan,
            room,
            round: 0,
            rows: Vec::new(),
            calls: vec![Masks::default(); shapes],
            conts: vec![Masks::default(); places],
            solutions: vec![Masks::default(); shapes],
            callers: (0..clauses).map(|_| Vec::new()).collect(),
            called: vec![None; shapes],
            waiting: (0..shapes).map(|_| None).collect(),
            bodies: vec![Join::default(); places],
            heads: vec![Masks::default(); clauses],
            returns: vec![Join::default(); shapes],
            new_places: Vec::new(),
            new_heads: Vec::new(),
            new_shapes: Vec::new(),
            pairs: 0,
            unifications: 0,
        }
    }

    pub fn run(&mut self) -> Result<(), Full> {
        self.add_call(0, self.plan.program.goal_mask)?;
        let mut from = 0;
        while from < self.rows.len() {
            let to = self.rows.len();
            self.rows[from..to].sort_unstable();
            self.round += 1;
            for at in from..to {
                self.look_at(self.rows[at])?;
            }
            self.continue_bodies()?;
            self.pass_back();
            self.return_solutions()?;
            from = to;
        }
        Ok(())
    }

    fn add(&mut self, kind: u16, a: usize, b: usize, mask: u16) -> Result<(), Full> {
        if self.rows.len() == self.room {
            return Err(Full);
        }
        self.rows.push([self.round, kind, a as u16, b as u16, mask]);
        Ok(())
    }

    fn add_call(&mut self, shape: usize, mask: u16) -> Result<(), Full> {
        if self.calls[shape].insert(mask) {
            self.add(CALL, shape, 0, mask)?;
        }
        Ok(())
    }

    /// A cont row that is new, and the call row that comes with it.
    fn add_cont(&mut self, place: usize, mask: u16) -> Result<(), Full> {
        let at = &self.plan.places[place];
        self.add(CONT, at.clause + 1, at.number, mask)?;
        self.add_call(at.shape, at.to_shape(mask))
    }

    /// Takes a row of the round before to where it is joined with others.
    fn look_at(&mut self, [_, kind, a, b, mask]: Row) -> Result<(), Full> {
        match kind {
            CALL => self.call(usize::from(a), mask),
            CONT => {
                let place = self.plan.first_places[usize::from(a) - 1] + usize::from(b) - 1;
                if self.bodies[place].insert_left(mask & self.plan.places[place].kept) {
                    self.new_places.push(place);
                }
                Ok(())
            }
            _ => {
                self.solution(usize::from(a), mask);
                Ok(())
            }
        }
    }

    /// Rule 1.
    fn call(&mut self, shape: usize, mask: u16) -> Result<(), Full> {
        if self.returns[shape].insert_left(mask) {
            self.new_shapes.push(shape);
        }
        let called = match self.called[shape].take() {
            Some(called) => called,
            None => self.first_call(shape),
        };
        for &(clause, index) in &called {
            let marks = self.callers[clause][index].unified.to_b(mask);
            if self.plan.program.clauses[clause].body.is_empty() {
                if self.heads[clause].insert(marks) {
                    self.new_heads.push(clause);
                }
            } else {
                let place = self.plan.first_places[clause];
                if self.conts[place].insert(marks) {
                    self.add_cont(place, marks)?;
                }
            }
        }
        self.called[shape] = Some(called);
        Ok(())
    }

    /// Unifies a shape with the heads of its predicate's clauses.
    fn first_call(&mut self, shape: usize) -> Vec<(usize, usize)> {
        let cells = &self.plan.shapes[shape].cells;
        let mut called = Vec::new();
        for &clause in &self.plan.clauses_of[usize::from(cells[0])] {
            self.unifications += 1;
            let head = self.plan.head_cells(clause);
            if let Some(unified) = unify(cells, head, self.plan.program.functions) {
                called.push((clause, self.callers[clause].len()));
                self.callers[clause].push(Caller { shape, unified, passed_back: 0 });
                self.new_heads.push(clause);
            }
        }
        called
    }

    fn solution(&mut self, shape: usize, mask: u16) {
        let waiting = match self.waiting[shape].take() {
            Some(waiting) => waiting,
            None => self.first_solution(shape),
        };
        for Waiting { place, unified } in &waiting {
            let marks = unified.to_b(mask) & self.plan.places[*place].kept;
            if self.bodies[*place].insert_right(marks) {
                self.new_places.push(*place);
            }
        }
        self.waiting[shape] = Some(waiting);
    }

    /// Unifies a shape with the body atoms of its predicate.
    fn first_solution(&mut self, shape: usize) -> Vec<Waiting> {
        let cells = &self.plan.shapes[shape].cells;
        let mut waiting = Vec::new();
        for &place in &self.plan.places_of[usize::from(cells[0])] {
            self.unifications += 1;
            if let Some(unified) = unify(cells, self.plan.place_cells(place), self.plan.program.functions) {
                waiting.push(Waiting { place, unified });
            }
        }
        waiting
    }

    /// Rule 2: marks on the next place, or on the head. Both sides have only what is of use there.
    fn continue_bodies(&mut self) -> Result<(), Full> {
        while let Some(place) = self.new_places.pop() {
            let at = &self.plan.places[place];
            if at.is_last {
                let head = &mut self.heads[at.clause];
                let known = head.list.len();
                self.pairs += self.bodies[place].new_unions(head);
                if head.list.len() > known {
                    self.new_heads.push(at.clause);
                }
            } else {
                let known = self.conts[place + 1].list.len();
                self.pairs += self.bodies[place].new_unions(&mut self.conts[place + 1]);
                for i in known..self.conts[place + 1].list.len() {
                    self.add_cont(place + 1, self.conts[place + 1].list[i])?;
                }
            }
        }
        Ok(())
    }

    /// Rule 3, its first half: what heads pass to the shapes that were called.
    fn pass_back(&mut self) {
        while let Some(clause) = self.new_heads.pop() {
            let marks = &self.heads[clause].list;
            for caller in &mut self.callers[clause] {
                for &mask in &marks[caller.passed_back..] {
                    if self.returns[caller.shape].insert_right(caller.unified.to_a(mask)) {
                        self.new_shapes.push(caller.shape);
                    }
                }
                caller.passed_back = marks.len();
            }
        }
    }

    /// Rule 3, its second half: each call keeps its own marks.
    fn return_solutions(&mut self) -> Result<(), Full> {
        while let Some(shape) = self.new_shapes.pop() {
            let known = self.solutions[shape].list.len();
            self.pairs += self.returns[shape].new_unions(&mut self.solutions[shape]);
            for i in known..self.solutions[shape].list.len() {
                self.add(SOLUTION, shape, 0, self.solutions[shape].list[i])?;
            }
        }
        Ok(())
    }

    /// How many pairs of a cont row and a solution row rule 2 has, and of marks on a head and a call row rule 3.
    pub fn combinations(&self) -> (usize, usize) {
        let count = |masks: &Masks| masks.list.len();
        let (mut rule2, mut rule3) = (0, 0);
        for (shape, waiting) in self.waiting.iter().enumerate() {
            for Waiting { place, .. } in waiting.iter().flatten() {
                rule2 += count(&self.conts[*place]) * count(&self.solutions[shape]);
            }
        }
        for (clause, callers) in self.callers.iter().enumerate() {
            for caller in callers {
                rule3 += count(&self.heads[clause]) * count(&self.calls[caller.shape]);
            }
        }
        (rule2, rule3)
    }
}
