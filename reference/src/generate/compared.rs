//! Plans whose comparisons follow solutions, on one side or on both: the branches
//! of an If are compared with one unknown, so the second is compared with what
//! the first has made of it.

use super::types::{app, arrow, forall, Ty, BOOL, INT};
use super::{sheet, Made};
use crate::oracle::MOST_STEPS;
use crate::random::Random;
use crate::sheet::{line, Line};
use std::collections::{BTreeMap, BTreeSet};

type Lines = Vec<Line>;
type Context = BTreeMap<u32, Ty>;

/// Takes anything and gives Int.
const TAKER: u32 = 40;
/// Gives what it takes.
const LINK: u32 = 41;
/// Gives (a × a) for an a.
const DOUBLE: u32 = 42;
/// The first of a plan's own variables, and of the names that are bound.
const OWN: u32 = 50;
const BOUND: u32 = 200;

fn bound(at: usize) -> Ty {
    Ty::Var(BOUND + at as u32)
}

fn pair(first: Ty, second: Ty) -> Ty {
    app(app(Ty::Con(31), first), second)
}

fn plan(own: &[Ty], term: Lines) -> Made {
    let taking = |result| forall(BOUND, arrow(bound(0), result));
    let mut context = Context::from([
        (TAKER, taking(INT)),
        (LINK, taking(bound(0))),
        (DOUBLE, taking(Ty::Product(vec![bound(0); 2]))),
    ]);
    context.extend((OWN..).zip(own.iter().cloned()));
    let term = applied(TAKER, 1, term);
    Made {
        ceiling: MOST_STEPS,
        lines: sheet(&BTreeMap::new(), &context, &INT, &term),
    }
}

fn seven() -> Lines {
    vec![line(22, 7, 0)]
}

/// 7 < 7.
fn less() -> Lines {
    vec![line(28, 5, 0), line(22, 7, 0), line(22, 7, 0)]
}

fn variable(name: u32) -> Lines {
    vec![line(21, name as i64, 0)]
}

fn either(first: Lines, second: Lines) -> Lines {
    [vec![line(29, 0, 0)], less(), first, second].concat()
}

/// A variable applied so many times over.
fn applied(name: u32, times: usize, term: Lines) -> Lines {
    let call = [line(24, 0, 0), line(21, name as i64, 0)];
    [call.repeat(times), term].concat()
}

/// A term beside itself: what a pattern binds to it, twice.
fn itself(term: Lines) -> Lines {
    let name = BOUND + 99;
    let bind = vec![line(42, name as i64, 0)];
    let body = either(variable(name), variable(name));
    [vec![line(27, 0, 1)], term, bind, body].concat()
}

/// Int so many times, but for the last part.
fn many(count: usize, last: Ty) -> Ty {
    Ty::Product([vec![INT; count - 1], vec![last]].concat())
}

/// A product of so many of a variable, which then stands twice more.
fn copies(parts: Vec<Ty>, last: Ty) -> Ty {
    let all = [Ty::Product(parts), bound(0), last];
    closed(all.into_iter().fold(Ty::Con(32), app))
}

/// Two products compared that were short when they were put on the board: the last
/// argument is compared first and gives the first variable a type of so many parts,
/// the one before it the second, and then the products follow both.
fn late(count: usize, first: Vec<Ty>, second: Vec<Ty>) -> Made {
    let own = [copies(first, bound(0)), copies(second, many(count, INT))];
    plan(&own, either(variable(OWN), variable(OWN + 1)))
}

/// What the comparison was made for, with what each is.
pub fn plans() -> Vec<(String, Made)> {
    let mut plans = Vec::new();
    let mut add = |title: String, own: &[Ty], first: Lines, second: Lines| {
        plans.push((
            format!("{title}, turned"),
            plan(own, either(second.clone(), first.clone())),
        ));
        plans.push((title, plan(own, either(first, second))));
    };
    for levels in [1, 2, 3, 5, 8, 9, 40] {
        let double = |more: usize, term| applied(DOUBLE, levels + more, term);
        add(
            format!("2^{levels}, equal"),
            &[],
            double(0, seven()),
            double(0, seven()),
        );
        add(
            format!("2^{levels}, the bottom differs"),
            &[],
            double(0, seven()),
            double(0, less()),
        );
        add(
            format!("2^{levels}, one side is longer"),
            &[],
            double(0, seven()),
            double(1, seven()),
        );
        let linked = |term| applied(LINK, 3, double(0, applied(LINK, 20, term)));
        add(
            format!("2^{levels}, equal by links"),
            &[],
            double(0, seven()),
            linked(seven()),
        );
    }
    for links in [1, 2, 30, 200] {
        let link = |term| applied(LINK, links, term);
        add(
            format!("{links} links beside 7"),
            &[],
            link(seven()),
            seven(),
        );
        add(
            format!("{links} links beside a truth value"),
            &[],
            link(seven()),
            less(),
        );
        add(
            format!("{links} links beside {links}"),
            &[],
            link(seven()),
            link(seven()),
        );
    }
    for count in [1, 2, 62, 98] {
        let kinds = [
            ("equal", many(count, INT), many(count, INT)),
            ("the last differs", many(count, INT), many(count, BOOL)),
            ("one is longer", many(count, INT), many(count, many(3, INT))),
            (
                "one has a part more",
                many(count, INT),
                many(count + 1, INT),
            ),
        ];
        for (title, first, second) in kinds {
            let title = format!("{count} parts, {title}");
            add(title, &[first, second], variable(OWN), variable(OWN + 1));
        }
    }
    for (count, times) in [(1, 1), (4, 3), (20, 50), (60, 66)] {
        let same = vec![bound(0); times];
        let other = |last| [vec![bound(0); times - 1], vec![last]].concat();
        let title = format!("{times} of {count} parts late");
        plans.push((
            format!("{title}, equal"),
            late(count, same.clone(), same.clone()),
        ));
        plans.push((
            format!("{title}, the last differs"),
            late(count, same.clone(), other(BOOL)),
        ));
        plans.push((
            format!("{title}, one side is short"),
            late(count, same.clone(), vec![INT]),
        ));
        plans.push((
            format!("{title}, the other side is short"),
            late(count, vec![INT], same),
        ));
    }
    for levels in [1, 4, 7] {
        let term = itself(applied(LINK, 2, applied(DOUBLE, levels, seven())));
        plans.push((format!("2^{levels} beside itself"), plan(&[], term)));
    }
    plans
}

/// A type made by the seed.
fn part(random: &mut Random, variables: usize, depth: usize) -> Ty {
    let choice = random.below(if depth == 0 { 60 } else { 100 });
    let inner = |random: &mut Random| part(random, variables, depth - 1);
    match choice {
        0..=44 => bound(random.below(variables)),
        45..=54 => INT,
        55..=59 => BOOL,
        60..=72 => arrow(inner(random), inner(random)),
        73..=90 => pair(inner(random), inner(random)),
        _ => {
            let count = 1 + random.below(3);
            Ty::Product((0..count).map(|_| inner(random)).collect())
        }
    }
}

/// The type under a quantifier for each of its variables.
fn closed(ty: Ty) -> Ty {
    let mut free = BTreeSet::new();
    names(&ty, &mut free);
    free.into_iter().rev().fold(ty, |ty, name| forall(name, ty))
}

fn names(ty: &Ty, into: &mut BTreeSet<u32>) {
    if let Ty::Var(name) = ty {
        into.insert(*name);
    }
    ty.parts().into_iter().for_each(|part| names(part, into));
}

fn term(random: &mut Random, own: usize, depth: usize) -> Lines {
    let choice = random.below(if depth == 0 { 40 } else { 100 });
    let inner = |random: &mut Random| term(random, own, depth - 1);
    match choice {
        0..=7 => seven(),
        8..=10 => less(),
        11..=39 => variable(OWN + random.below(own) as u32),
        40..=54 => applied(LINK, 1 + random.below(4), inner(random)),
        55..=64 => applied(DOUBLE, 1 + random.below(5), inner(random)),
        65..=94 => either(inner(random), inner(random)),
        _ => itself(inner(random)),
    }
}

/// Plans of this shape that a seed gives.
pub fn random(seed: u64, count: usize) -> impl Iterator<Item = Made> {
    let mut random = Random::new(seed);
    (0..count).map(move |_| {
        let own: Vec<Ty> = (0..1 + random.below(3))
            .map(|_| closed(part(&mut random, 3, 3)))
            .collect();
        let term = term(&mut random, own.len(), 4);
        plan(&own, term)
    })
}
