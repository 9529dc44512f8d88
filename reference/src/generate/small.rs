//! Every plan whose term has at most four lines, types and patterns in it
//! counted, over this alphabet:
//! - leaves: Var n20, n40, n50; LitInt 7; Constructor n20 and printInt with no
//!   argument
//! - heads with one part: TypeLambda n10, Constructor n20, printInt, Case with
//!   no arm; Lambda n50 of type Int or Var n10
//! - heads with two: App, BinOp Add and Lt, printInt; with three: If; Case with
//!   one arm whose pattern is Wildcard, Var n50 or Constructor n20
//! - six expected types and three contexts, below

use super::types::{arrow, forall, Ty, INT, UNIT};
use super::Made;
use crate::oracle::MOST_STEPS;
use crate::sheet::{line, Line};
use std::collections::BTreeMap;

const MOST_LINES: usize = 4;

type Term = Vec<Line>;

pub fn plans() -> Vec<Made> {
    let terms = terms();
    let mut plans = Vec::new();
    for (constructor, variable) in contexts() {
        for expected in expected() {
            for term in &terms {
                let lines = super::sheet(&constructor, &variable, &expected, term);
                plans.push(Made {
                    ceiling: MOST_STEPS,
                    lines,
                });
            }
        }
    }
    plans
}

fn expected() -> [Ty; 6] {
    let var = Ty::Var(10);
    [
        INT,
        UNIT,
        Ty::Con(30),
        arrow(INT, INT),
        forall(10, arrow(var.clone(), var)),
        Ty::Product(vec![INT]),
    ]
}

/// The types of constructor n20 and of context variable n40.
fn contexts() -> [(BTreeMap<u32, Ty>, BTreeMap<u32, Ty>); 3] {
    let var = Ty::Var(10);
    let one = |name: u32, ty: Ty| BTreeMap::from([(name, ty)]);
    [
        (BTreeMap::new(), BTreeMap::new()),
        (one(20, Ty::Con(30)), one(40, arrow(INT, INT))),
        (
            one(20, forall(10, arrow(var.clone(), Ty::Con(30)))),
            one(40, forall(10, arrow(var.clone(), var))),
        ),
    ]
}

fn terms() -> Vec<Term> {
    let mut by_size: Vec<Vec<Term>> = vec![Vec::new()];
    for size in 1..=MOST_LINES {
        let mut terms = if size == 1 { leaves() } else { Vec::new() };
        for (head, parts) in heads() {
            if size > head.len() {
                add_filled(&head, parts, size - head.len(), &by_size, &mut terms);
            }
        }
        if size == MOST_LINES {
            add_cases(&by_size[1], &mut terms);
        }
        by_size.push(terms);
    }
    by_size.concat()
}

fn leaves() -> Vec<Term> {
    let leaves = [(21, 20), (21, 40), (21, 50), (22, 7), (26, 20), (30, 4)];
    leaves
        .map(|(kind, value)| vec![line(kind, value, 0)])
        .into()
}

/// The lines that a term can begin with, and how many terms follow.
fn heads() -> Vec<(Term, usize)> {
    let one = |kind, value, count| vec![line(kind, value, count)];
    vec![
        (one(25, 10, 0), 1),
        (one(26, 20, 1), 1),
        (one(30, 4, 1), 1),
        (one(27, 0, 0), 1),
        (vec![line(23, 50, 0), line(12, 1, 0)], 1),
        (vec![line(23, 50, 0), line(11, 10, 0)], 1),
        (one(24, 0, 0), 2),
        (one(28, 1, 0), 2),
        (one(28, 5, 0), 2),
        (one(30, 4, 2), 2),
        (one(29, 0, 0), 3),
    ]
}

/// All ways to follow a head by so many terms of so many lines in all.
fn add_filled(
    head: &[Line],
    parts: usize,
    size: usize,
    by_size: &[Vec<Term>],
    out: &mut Vec<Term>,
) {
    if parts == 0 {
        if size == 0 {
            out.push(head.to_vec());
        }
        return;
    }
    for first in 1..=size.min(by_size.len() - 1) {
        for term in &by_size[first] {
            let longer = [head, term].concat();
            add_filled(&longer, parts - 1, size - first, by_size, out);
        }
    }
}

/// Case, scrutinee, pattern and body of one line each.
fn add_cases(leaves: &[Term], out: &mut Vec<Term>) {
    let patterns = [line(41, 0, 0), line(42, 50, 0), line(43, 20, 0)];
    for scrutinee in leaves {
        for pattern in patterns {
            for body in leaves {
                out.push([&[line(27, 0, 1)], &scrutinee[..], &[pattern], body].concat());
            }
        }
    }
}
