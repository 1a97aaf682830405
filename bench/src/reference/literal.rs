//! The rules once more, word for word and slowly: terms as trees, and every combination of rows in every round.
//! The analysis is held against it on random programs.

use super::analyse::Row;
use super::limits::*;
use super::program::{decode, is_variable, Atom, Clause, Program};
use std::collections::{BTreeMap, BTreeSet};

/// A variable has a side, which keeps the two atoms' variables apart.
type Variable = (u8, u16);

#[derive(Clone, Debug, PartialEq)]
enum Term {
    Var(Variable),
    App(u16, Vec<Term>),
}

use Term::{App, Var};

type Substitution = BTreeMap<Variable, Term>;

fn apply(s: &Substitution, term: &Term) -> Term {
    match term {
        Var(v) => s.get(v).cloned().unwrap_or_else(|| term.clone()),
        App(f, arguments) => App(*f, arguments.iter().map(|t| apply(s, t)).collect()),
    }
}

fn variables(term: &Term) -> BTreeSet<Variable> {
    match term {
        Var(v) => BTreeSet::from([*v]),
        App(_, arguments) => arguments.iter().flat_map(variables).collect(),
    }
}

/// Robinson's algorithm; the substitution is idempotent.
fn mgu(a: &Term, b: &Term) -> Option<Substitution> {
    let mut s = Substitution::new();
    let mut open = vec![(a.clone(), b.clone())];
    while let Some((x, y)) = open.pop() {
        match (apply(&s, &x), apply(&s, &y)) {
            (x, y) if x == y => {}
            (Var(v), t) | (t, Var(v)) => {
                if variables(&t).contains(&v) {
                    return None;
                }
                let one = Substitution::from([(v, t)]);
                s.values_mut().for_each(|old| *old = apply(&one, old));
                s.extend(one);
            }
            (App(f, xs), App(g, ys)) if f == g => open.extend(xs.into_iter().zip(ys)),
            _ => return None,
        }
    }
    Some(s)
}

fn term(program: &Program, cells: &mut impl Iterator<Item = u16>) -> Term {
    let cell = cells.next().expect("a cell");
    if is_variable(cell) {
        return Var((0, cell - FIRST_VARIABLE));
    }
    let arity = program.functions[usize::from(cell)];
    App(cell, (0..arity).map(|_| term(program, cells)).collect())
}

fn atom(program: &Program, cells: &[u16]) -> Term {
    let arity = program.predicates[usize::from(cells[0])];
    let mut arguments = cells[1..].iter().copied();
    App(cells[0], (0..arity).map(|_| term(program, &mut arguments)).collect())
}

fn on_side(term: &Term, side: u8) -> Term {
    match term {
        Var((_, v)) => Var((side, *v)),
        App(f, arguments) => App(*f, arguments.iter().map(|t| on_side(t, side)).collect()),
    }
}

/// Marks that pass from A with M to B with N, if they unify.
fn pass(a: &Term, m: u16, b: &Term, n: u16) -> Option<u16> {
    let (a, b) = (on_side(a, 0), on_side(b, 1));
    let s = mgu(&a, &b)?;
    let marked = |v: &Variable| m >> v.1 & 1 == 1;
    let stands_for = |v: &Variable| variables(&apply(&s, &Var(*v)));
    let known: BTreeSet<_> = variables(&a).iter().filter(|v| marked(v)).flat_map(stands_for).collect();
    let ground = |v: &Variable| n >> v.1 & 1 == 1 || stands_for(v).is_subset(&known);
    Some(variables(&b).iter().filter(|v| ground(v)).fold(0, |mask, v| mask | 1 << v.1))
}

fn in_order(term: &Term, order: &mut Vec<u16>) {
    match term {
        Var((_, v)) if !order.contains(v) => order.push(*v),
        Var(_) => {}
        App(_, arguments) => arguments.iter().for_each(|t| in_order(t, order)),
    }
}

/// An atom's shape and the atom's variable for each of the shape's.
fn shape(atom: &Term) -> (Term, Vec<u16>) {
    let mut order = Vec::new();
    in_order(atom, &mut order);
    let renumber = order.iter().enumerate().map(|(i, v)| ((0, *v), Var((0, i as u16)))).collect();
    (apply(&renumber, atom), order)
}

struct Rules {
    shapes: Vec<Term>,
    clauses: Vec<(Term, Vec<Term>)>,
}

/// Kind, a, b, mask.
type Found = [u16; 4];

impl Rules {
    fn call(&self, atom: &Term, marks: u16) -> Found {
        let (shape, order) = shape(atom);
        let number = self.shapes.iter().position(|s| *s == shape).unwrap();
        let mask = order.iter().enumerate().fold(0, |mask, (i, v)| mask | (marks >> v & 1) << i);
        [CALL, number as u16, 0, mask]
    }

    fn cont(&self, n: usize, i: usize, marks: u16) -> Found {
        let (head, body) = &self.clauses[n];
        let before: BTreeSet<_> = body[..i - 1].iter().chain([head]).flat_map(variables).collect();
        let after: BTreeSet<_> = body[i - 1..].iter().chain([head]).flat_map(variables).collect();
        let list = before.intersection(&after).fold(0, |mask, v| mask | 1 << v.1);
        [CONT, n as u16 + 1, i as u16, marks & list]
    }

    /// What comes after body atoms 1 to i-1, with these marks: place i, or marks on the head and rule 3.
    fn at(&self, rows: &BTreeSet<Found>, n: usize, i: usize, marks: u16, out: &mut BTreeSet<Found>) {
        let (head, body) = &self.clauses[n];
        if i <= body.len() {
            out.extend([self.call(&body[i - 1], marks), self.cont(n, i, marks)]);
            return;
        }
        for [_, s, _, mask] in rows.iter().filter(|row| row[0] == CALL) {
            out.extend(pass(head, marks, &self.shapes[usize::from(*s)], *mask).map(|m| [SOLUTION, *s, 0, m]));
        }
    }

    fn given(&self, rows: &BTreeSet<Found>) -> BTreeSet<Found> {
        let mut out = rows.clone();
        for &[kind, a, b, mask] in rows {
            let (a, b) = (usize::from(a), usize::from(b));
            if kind == CALL {
                for (n, (head, _)) in self.clauses.iter().enumerate() {
                    pass(&self.shapes[a], mask, head, 0).into_iter().for_each(|m| self.at(rows, n, 1, m, &mut out));
                }
            } else if kind == CONT {
                let body_atom = &self.clauses[a - 1].1[b - 1];
                for [_, s, _, solution] in rows.iter().filter(|row| row[0] == SOLUTION) {
                    let passed = pass(&self.shapes[usize::from(*s)], *solution, body_atom, 0);
                    passed.into_iter().for_each(|m| self.at(rows, a - 1, b + 1, mask | m, &mut out));
                }
            }
        }
        out
    }
}

fn table(words: &[u16]) -> Vec<Row> {
    let program = decode(words).expect("a sound program");
    let atom = |range: &Atom| atom(&program, program.cells(range));
    let body = |clause: &Clause| clause.body.iter().map(atom).collect::<Vec<_>>();
    let clauses: Vec<_> = program.clauses.iter().map(|c| (atom(&c.head), body(c))).collect();
    let mut shapes: Vec<Term> = Vec::new();
    for a in [atom(&program.goal)].iter().chain(clauses.iter().flat_map(|c| &c.1)) {
        let (shape, _) = shape(a);
        if !shapes.contains(&shape) {
            shapes.push(shape);
        }
    }
    let rules = Rules { shapes, clauses };
    let mut rows = BTreeSet::from([rules.call(&atom(&program.goal), program.goal_mask)]);
    let mut table: Vec<Row> = rows.iter().map(|r| [0, r[0], r[1], r[2], r[3]]).collect();
    for round in 1.. {
        let more = rules.given(&rows);
        if more == rows {
            break;
        }
        table.extend(more.difference(&rows).map(|r| [round, r[0], r[1], r[2], r[3]]));
        rows = more;
    }
    table
}

/// The rows that both give for one program, if they are at most so many.
fn agreed(words: &[u16], most: usize) -> Option<usize> {
    let mut given = vec![0; most * ROW_WORDS];
    let reply = super::analyse(words, &mut given);
    if reply.number == 0 {
        assert_eq!(given[..reply.count * ROW_WORDS], table(words).concat(), "{words:?}");
    }
    (reply.number == 0).then_some(reply.count)
}

#[test]
fn the_analysis_gives_what_the_rules_say() {
    use crate::generate::{size, sound};
    use crate::{large, random::Random};
    let small = (1_000_000..1_006_000).filter_map(|seed| {
        let random = &mut Random::new(seed);
        let size = size(random);
        agreed(&sound(random, &size).words, 60)
    });
    let large = (1_000_000..1_000_400).filter_map(|seed| agreed(&large::random(seed).words, 100));
    let rows: Vec<usize> = small.chain(large).collect();
    println!("{} programs, {} rows, at most {:?}", rows.len(), rows.iter().sum::<usize>(), rows.iter().max());
}
