//! Plans over a catalogue: entries of both kinds, many of them quantified, with
//! names from one small pool, and otherwise seldom a quantifier, so that the
//! plain mark hangs on which names the term has, and on which lines.

use super::types::{any, mono, Ty};
use super::{sheet, wild, Made};
use crate::oracle::MOST_STEPS;
use crate::random::Random;
use crate::sheet::{line, Line};
use std::collections::BTreeMap;

type Lines = Vec<Line>;
type Triple = (i64, i64, i64);

/// ∀n11. n11, and a type that ends with it.
const FORALL: [Triple; 2] = [(14, 11, 0), (11, 11, 0)];
const LAST: [Triple; 6] = [
    (16, 0, 2),
    (12, 1, 0),
    (13, 0, 0),
    (12, 1, 0),
    FORALL[0],
    FORALL[1],
];
const INT: [Triple; 1] = [(12, 1, 0)];
const SEVEN: [Triple; 1] = [(22, 7, 0)];

fn lines(parts: &[&[Triple]]) -> Lines {
    let triples = parts.concat().into_iter();
    triples
        .map(|(kind, value, count)| line(kind, value, count))
        .collect()
}

fn entry(kind: i64, name: i64, ty: &[Triple]) -> Vec<Triple> {
    [&[(kind, name, 0)], ty].concat()
}

/// The entries, then a term as a type.
fn asked(entries: &[Triple], expected: &[Triple], term: &[Triple]) -> Made {
    Made {
        ceiling: MOST_STEPS,
        lines: lines(&[entries, &[(3, 0, 0)], expected, &[(4, 0, 0)], term]),
    }
}

/// A term as Int beside one entry of that kind and name, ∀n11. n11.
fn beside(kind: i64, name: i64, term: &[Triple]) -> Made {
    asked(&entry(kind, name, &FORALL), &INT, term)
}

/// Case of 7 with one arm, whose term is 1.
fn case(pattern: &[Triple]) -> Vec<Triple> {
    [&[(27, 0, 1), (22, 7, 0)], pattern, &[(22, 1, 0)]].concat()
}

/// A function of Int, applied to 7: the name that is bound, then the body.
fn applied(name: i64, body: &[Triple]) -> Vec<Triple> {
    [&[(24, 0, 0), (23, name, 0), (12, 1, 0)], body, &SEVEN].concat()
}

/// By what they show.
pub fn plans() -> Vec<(&'static str, Made)> {
    [
        unnamed(),
        named(),
        across(),
        unread(),
        named_nothing(),
        bounds(),
        elsewhere(),
    ]
    .concat()
}

fn unnamed() -> Vec<(&'static str, Made)> {
    vec![
        (
            "7 as Int beside a quantified constructor",
            beside(1, 20, &SEVEN),
        ),
        ("beside a quantified variable", beside(2, 20, &SEVEN)),
        ("a literal is no name", beside(1, 20, &[(22, 20, 0)])),
        (
            "an entry without a quantifier, named",
            asked(&entry(1, 20, &INT), &INT, &[(26, 20, 0)]),
        ),
        (
            "nothing is refused less: an unbound constructor",
            beside(1, 20, &[(26, 21, 0)]),
        ),
        (
            "Bool for Int",
            asked(&entry(2, 20, &FORALL), &[(12, 2, 0)], &SEVEN),
        ),
    ]
}

fn named() -> Vec<(&'static str, Made)> {
    vec![
        ("on a line of kind 26", beside(1, 20, &[(26, 20, 0)])),
        (
            "on a line of kind 21, in the context",
            beside(2, 20, &[(21, 20, 0)]),
        ),
        (
            "on a line of kind 21, a constructor",
            beside(1, 20, &[(21, 20, 0)]),
        ),
        ("on a line of kind 43", beside(1, 20, &case(&[(43, 20, 0)]))),
        (
            "as a pattern's part",
            beside(1, 20, &case(&[(43, 30, 1), (43, 20, 0)])),
        ),
        (
            "in the body of a function",
            beside(1, 20, &applied(40, &[(26, 20, 0)])),
        ),
        (
            "of printInt's argument",
            beside(1, 20, &[(30, 4, 1), (26, 20, 0)]),
        ),
        (
            "in the last part of an If",
            beside(2, 20, &[(29, 0, 0), (22, 1, 0), (22, 2, 0), (21, 20, 0)]),
        ),
        (
            "on the right of an operator",
            beside(2, 20, &[(28, 1, 0), (22, 7, 0), (21, 20, 0)]),
        ),
        (
            "as an argument",
            beside(2, 20, &[(24, 0, 0), (22, 7, 0), (21, 20, 0)]),
        ),
        ("as a scrutinee", beside(2, 20, &[(27, 0, 0), (21, 20, 0)])),
    ]
}

/// A name of the other table, a name that is hidden.
fn across() -> Vec<(&'static str, Made)> {
    let constructor = |ty: &[Triple]| entry(1, 20, ty);
    let variable = |ty: &[Triple]| entry(2, 20, ty);
    let both =
        |first: &[Triple], second: &[Triple]| [constructor(first), variable(second)].concat();
    vec![
        (
            "a variable's name on a line of kind 26",
            beside(2, 20, &[(26, 20, 0)]),
        ),
        (
            "and on one of kind 43",
            beside(2, 20, &case(&[(43, 20, 0)])),
        ),
        (
            "beside a constructor of that name",
            asked(&both(&INT, &FORALL), &INT, &[(26, 20, 0)]),
        ),
        (
            "a constructor hidden by a variable",
            asked(&both(&FORALL, &INT), &INT, &[(21, 20, 0)]),
        ),
        (
            "both without a quantifier",
            asked(&both(&INT, &INT), &INT, &[(21, 20, 0)]),
        ),
        (
            "a constructor hidden by a function's parameter",
            beside(1, 20, &applied(20, &[(21, 20, 0)])),
        ),
        (
            "and by a pattern's variable",
            beside(1, 20, &[(27, 0, 1), (22, 7, 0), (42, 20, 0), (21, 20, 0)]),
        ),
        (
            "a variable that hides a function's parameter",
            beside(2, 20, &applied(20, &[(21, 20, 0)])),
        ),
    ]
}

/// In the arguments of a constructor and of an intrinsic, which no rule reads.
fn unread() -> Vec<(&'static str, Made)> {
    let entries = [entry(1, 20, &INT), entry(1, 30, &FORALL)].concat();
    let argument = |term: &[Triple]| asked(&entries, &INT, &[&[(26, 20, 1)], term].concat());
    vec![
        (
            "a constructor's argument that names nothing",
            argument(&SEVEN),
        ),
        ("a variable in it", argument(&[(21, 30, 0)])),
        ("a constructor in it", argument(&[(26, 30, 0)])),
        ("a pattern in it", argument(&case(&[(43, 30, 0)]))),
        (
            "in an argument's argument",
            argument(&[(26, 20, 1), (21, 30, 0)]),
        ),
        (
            "a type abstraction in it",
            argument(&[(25, 12, 0), (22, 7, 0)]),
        ),
        (
            "a quantified parameter in it",
            argument(&[(23, 12, 0), FORALL[0], FORALL[1], (22, 7, 0)]),
        ),
        (
            "an unknown intrinsic's argument",
            asked(&entries, &INT, &[(30, 9, 1), (21, 30, 0)]),
        ),
    ]
}

/// Lines of other kinds with that number.
fn named_nothing() -> Vec<(&'static str, Made)> {
    vec![
        (
            "a function's parameter",
            beside(2, 20, &applied(20, &SEVEN)),
        ),
        ("an intrinsic", beside(2, 20, &[(30, 20, 0)])),
        ("a pattern's variable", beside(2, 20, &case(&[(42, 20, 0)]))),
        (
            "an operator",
            beside(2, 3, &[(28, 3, 0), (22, 7, 0), (22, 7, 0)]),
        ),
        (
            "a type in the term",
            beside(1, 20, &[(23, 40, 0), (12, 20, 0), (22, 7, 0)]),
        ),
        (
            "a type variable in the term",
            beside(1, 20, &[(23, 40, 0), (11, 20, 0), (22, 7, 0)]),
        ),
        (
            "the expected type",
            asked(&entry(1, 20, &FORALL), &[(12, 20, 0)], &SEVEN),
        ),
        (
            "another entry's type",
            asked(
                &[entry(1, 20, &FORALL), entry(1, 21, &[(12, 20, 0)])].concat(),
                &INT,
                &[(26, 21, 0)],
            ),
        ),
        (
            "a type abstraction of that name",
            beside(1, 20, &[(25, 20, 0), (22, 7, 0)]),
        ),
    ]
}

/// Where an entry's type ends, the first and the last name.
fn bounds() -> Vec<(&'static str, Made)> {
    let two = |first: &[Triple], second: &[Triple], name: i64| {
        asked(
            &[entry(1, 20, first), entry(1, 21, second)].concat(),
            &INT,
            &[(26, name, 0)],
        )
    };
    vec![
        (
            "a quantifier in the last part of a type, named",
            asked(&entry(2, 20, &LAST), &INT, &[(21, 20, 0)]),
        ),
        (
            "not named",
            asked(&entry(2, 20, &LAST), &INT, &[(21, 30, 0)]),
        ),
        (
            "of two entries the first is quantified, and named",
            two(&FORALL, &INT, 20),
        ),
        ("the second is named", two(&FORALL, &INT, 21)),
        (
            "the second is quantified, and the first named",
            two(&INT, &FORALL, 20),
        ),
        ("the second is named", two(&INT, &FORALL, 21)),
        ("the lowest name", beside(2, 1, &[(21, 1, 0)])),
        ("the highest name", beside(2, 9999, &[(21, 9999, 0)])),
        ("one below it", beside(2, 9999, &[(21, 9998, 0)])),
        (
            "the lowest, where the highest is named",
            beside(2, 1, &[(21, 9999, 0)]),
        ),
    ]
}

/// Quantifiers outside the entries.
fn elsewhere() -> Vec<(&'static str, Made)> {
    vec![
        ("the expected type", asked(&[], &FORALL, &SEVEN)),
        ("its last part", asked(&[], &LAST, &SEVEN)),
        (
            "a function's parameter",
            asked(&[], &INT, &[&[(23, 40, 0)], &FORALL[..], &SEVEN].concat()),
        ),
        (
            "a type abstraction",
            asked(&[], &INT, &[(25, 40, 0), (22, 7, 0)]),
        ),
        (
            "in the last arm",
            asked(
                &[],
                &INT,
                &[(27, 0, 1), (22, 7, 0), (41, 0, 0), (25, 40, 0), (22, 7, 0)],
            ),
        ),
        ("none at all", asked(&[], &INT, &SEVEN)),
    ]
}

/// The pool of names in the entries is that of the terms.
const NAMES: (u32, u32) = (20, 25);

pub fn random(seed: u64, count: usize) -> impl Iterator<Item = Made> {
    let mut random = Random::new(seed);
    (0..count).map(move |_| Made {
        ceiling: MOST_STEPS,
        lines: plan(&mut random),
    })
}

fn plan(random: &mut Random) -> Lines {
    let constructors = entries(random);
    let context = entries(random);
    let expected = ty(random, 5);
    sheet(&constructors, &context, &expected, &term(random))
}

fn ty(random: &mut Random, quantified: usize) -> Ty {
    match random.chance(quantified) {
        true => any(random, 3),
        false => mono(random, 2),
    }
}

fn entries(random: &mut Random) -> BTreeMap<u32, Ty> {
    let count = random.below(4);
    (0..count)
        .map(|_| (random.name(NAMES.0, NAMES.1), ty(random, 60)))
        .collect()
}

/// Mostly without a quantifier and a type abstraction.
fn term(random: &mut Random) -> Lines {
    loop {
        let mut lines = Vec::new();
        let size = 1 + random.below(14);
        wild::add_term(random, size, &mut lines);
        if random.chance(5) || !lines.iter().any(|line| [14, 25].contains(&line.kind)) {
            return lines;
        }
    }
}
