//! Reports of one type and of two, up to as many nodes as the limit allows each,
//! and one more.

use super::under;
use crate::generate::limits::sheet;
use crate::generate::types::{arrow, forall, sized, Ty, BOOL, INT};
use crate::oracle::{Door, LIMIT};
use crate::record::raw::Raw;
use crate::sheet::{line, write, Line};

pub fn calls() -> Vec<Raw> {
    [unequal(), copied(), no_function(), quantified()].concat()
}

fn call(limit: u32, lines: Vec<Line>) -> Raw {
    under(limit, Raw::usual(Door::First, write(&lines)))
}

/// A variable of the one type as the other: 15.
fn compared(left: Ty, right: Ty) -> Vec<Line> {
    sheet(&[], &[(40, left)], right, vec![line(21, 40, 0)])
}

fn of_bool(nodes: usize) -> Ty {
    sized(nodes).replace(&INT, &BOOL)
}

fn unequal() -> Vec<Raw> {
    let usual = [
        (1, 1024),
        (1024, 1),
        (1, 1025),
        (1025, 1),
        (512, 512),
        (513, 512),
        (700, 325),
        (990, 1000),
    ];
    let calls = usual.map(|sides| (LIMIT, sides));
    let low = [2, 3, 5, 64].map(|limit: u32| {
        let most = limit as usize;
        let sides = [(most, most), (most + 1, most), (most, most + 1), (most, 1)];
        sides.map(|sides| (limit, sides))
    });
    let all = calls.into_iter().chain(low.concat());
    all.map(|(limit, (left, right))| call(limit, compared(of_bool(left), sized(right))))
        .collect()
}

/// n41 applied to n40 of 32 nodes has 31 copies of that and some nodes more: with
/// 31 of them 1,024.
fn copies(more: usize, expected: usize) -> Vec<Line> {
    let parts = [vec![Ty::Var(10); 31], vec![INT; more]].concat();
    let copying = forall(10, arrow(Ty::Var(10), Ty::Product(parts)));
    let context = [(40, of_bool(32)), (41, copying)];
    let term = [24, 0, 0, 21, 41, 0, 21, 40, 0];
    sheet(&[], &context, sized(expected), super::lines(&term))
}

fn copied() -> Vec<Raw> {
    let usual = [(31, 1024), (30, 1024), (31, 1023), (32, 1024), (31, 1025)];
    let longer = [(32, 1025), (33, 1025), (32, 1026)];
    let usual = usual.map(|sides| (LIMIT, sides));
    let longer = longer.map(|sides| (LIMIT + 1, sides));
    let all = usual.into_iter().chain(longer);
    all.map(|(limit, (more, expected))| call(limit, copies(more, expected)))
        .collect()
}

/// A Product applied: 13.
fn no_function() -> Vec<Raw> {
    let sizes = [
        (LIMIT, 1023),
        (LIMIT, 1024),
        (LIMIT, 1025),
        (LIMIT + 1, 1025),
        (3, 3),
        (3, 4),
    ];
    let calls = sizes.map(|(limit, nodes)| {
        let context = [(40, sized(nodes))];
        let term = [24, 0, 0, 21, 40, 0, 22, 7, 0];
        call(limit, sheet(&[], &context, INT, super::lines(&term)))
    });
    calls.into()
}

/// A Product with a quantifier in it, for an unknown: 17.
fn quantified() -> Vec<Raw> {
    let sizes = [
        (LIMIT, 1023),
        (LIMIT, 1024),
        (LIMIT, 1025),
        (LIMIT + 1, 1025),
        (8, 8),
        (8, 9),
    ];
    let calls = sizes.map(|(limit, nodes)| {
        let quantified = forall(11, Ty::Var(11));
        let ty = Ty::Product(vec![sized(nodes - 3), quantified]);
        call(limit, compared(ty, INT))
    });
    calls.into()
}
