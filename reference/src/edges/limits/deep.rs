//! Plans whose comparisons and applications bring the board higher than what led
//! to them: types that differ at the bottom, and types that are solved late.

use super::super::lines;
use crate::generate::limits::{making_n30, sheet};
use crate::generate::types::{app, arrow, forall, sized, Ty, INT};
use crate::sheet::Line;

const DEEP: usize = 9;

pub fn plans() -> Vec<Vec<Line>> {
    [compared(), late(), vec![checked()]].concat()
}

fn any() -> Ty {
    forall(10, Ty::Var(10))
}

/// Two known types beside each other: the result of an inner pattern and what the
/// outer one takes.
fn compared() -> Vec<Vec<Line>> {
    let arrows = |ty| (0..DEEP).fold(ty, |to, _| arrow(INT, to));
    let apps = |ty| (0..DEEP).fold(ty, |last, _| app(Ty::Con(31), last));
    let quantified = |ty| (0..DEEP as u32).fold(ty, |ty, name| forall(60 + name, ty));
    let pairs = [
        (
            Ty::Product(vec![arrows(any())]),
            Ty::Product(vec![arrows(INT)]),
        ),
        (apps(arrows(any())), apps(arrows(INT))),
        (apps(any()), apps(INT)),
        (INT, quantified(INT)),
        (app(Ty::Con(31), quantified(INT)), app(Ty::Con(31), INT)),
        (quantified(Ty::Con(31)), Ty::Con(31)),
    ];
    let term = [27, 0, 1, 26, 22, 0, 43, 21, 1, 43, 20, 0, 22, 7, 0];
    let plan = |(inner, taken): (Ty, Ty)| {
        let constructors = [
            (20, inner),
            (21, making_n30(&[taken])),
            (22, making_n30(&[])),
        ];
        sheet(&constructors, &[], INT, lines(&term))
    };
    pairs.map(plan).into()
}

/// n10 to copies of it, as an Arrow or as a type App.
fn copying(copies: usize, made: fn(Ty, Ty) -> Ty) -> Ty {
    made(Ty::Var(10), Ty::Product(vec![Ty::Var(10); copies]))
}

/// n70 and n71 get types whose parts are solved after them, and are then applied,
/// inferred, and set beside each other.
fn late() -> Vec<Vec<Line>> {
    let uses: [&[i64]; 3] = [
        &[24, 0, 0, 21, 70, 0, 22, 7, 0],
        &[21, 70, 0],
        &[29, 0, 0, 28, 5, 0, 22, 7, 0, 22, 7, 0, 21, 70, 0, 21, 71, 0],
    ];
    let plan = |(made, used): (fn(Ty, Ty) -> Ty, &[i64])| {
        let taking = |copies| forall(10, arrow(copying(copies, made), arrow(Ty::Var(10), INT)));
        let context = [(40, sized(20)), (41, taking(9)), (42, taking(8))];
        let bind = |name| [27, 0, 1, 27, 0, 0, 22, 7, 0, 42, name, 0];
        let solve = |taker, name| [24, 0, 0, 24, 0, 0, 21, taker, 0, 21, name, 0, 21, 40, 0];
        let sums = [28, 1, 0, 28, 1, 0];
        let solved = [solve(41, 70), solve(42, 71)].concat();
        let term = [&bind(70)[..], &bind(71), &sums, used, &solved].concat();
        sheet(&[], &context, INT, lines(&term))
    };
    let ways: [fn(Ty, Ty) -> Ty; 2] = [arrow, app];
    let all = ways
        .into_iter()
        .flat_map(|made| uses.map(|used| (made, used)));
    all.map(plan).collect()
}

/// A Lambda with a large parameter type, given to a function that takes such.
fn checked() -> Vec<Line> {
    let context = [(40, arrow(arrow(sized(50), INT), INT))];
    let lambda = [vec![crate::sheet::line(23, 50, 0)], sized(50).lines()].concat();
    let head = lines(&[24, 0, 0, 21, 40, 0]);
    sheet(
        &[],
        &context,
        INT,
        [head, lambda, lines(&[22, 7, 0])].concat(),
    )
}
