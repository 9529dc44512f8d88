//! The recorded answers of the ported Rust module to both calls: seven numbers,
//! reported types, solutions in order and levels, on calls with every result
//! that one gives.

mod common;

use common::record::{recorded, Record};
use kirvoghus::{Buffers, Name, Outcome, Type, Verdict};
use std::collections::{BTreeMap, BTreeSet};

/// A type's words, by recursion; the recorded types are at most 1,025 nodes deep.
fn words(ty: &Type) -> Vec<u32> {
    let node = |kind, value, parts: &[&Type]| {
        let parts = parts.iter().flat_map(|part| words(part));
        [kind, value].into_iter().chain(parts).collect()
    };
    match ty {
        Type::Var(Name(name)) => node(11, *name, &[]),
        Type::Con(Name(name)) => node(12, *name, &[]),
        Type::Arrow(argument, result) => node(13, 0, &[argument, result]),
        Type::Forall(Name(name), body) => node(14, *name, &[body]),
        Type::App(function, argument) => node(15, 0, &[function, argument]),
        Type::Product(parts) => {
            let all: Vec<&Type> = parts.iter().collect();
            node(16, parts.len() as u32, &all)
        }
        Type::Unknown(number) => node(17, *number, &[]),
        Type::Universal(number) => node(18, *number, &[]),
    }
}

/// The line, details and reported words that a verdict tells.
fn told(verdict: &Verdict) -> (u32, [u32; 2], Vec<u32>) {
    let nodes = |ty: &Type| words(ty).len() as u32 / 2;
    match verdict {
        Verdict::Misspelt { line } | Verdict::Unfit { line } => (*line, [0, 0], vec![]),
        Verdict::UnboundVariable { name }
        | Verdict::UnboundDataConstructor { name }
        | Verdict::UnknownIntrinsic { name } => (0, [name.0, 0], vec![]),
        Verdict::NotAFunction { ty } => (0, [nodes(ty), 0], words(ty)),
        Verdict::ArityMismatch { expected, actual }
        | Verdict::IntrinsicArityMismatch { expected, actual } => (0, [*expected, *actual], vec![]),
        Verdict::SubtypingError { left, right } => {
            let both = [words(left), words(right)].concat();
            (0, [nodes(left), nodes(right)], both)
        }
        Verdict::InstantiationError { unknown, ty } => (0, [*unknown, nodes(ty)], words(ty)),
        Verdict::Other { number } => panic!("{number} has no verdict"),
        _ => (0, [0, 0], vec![]),
    }
}

/// What the outcome tells is what was recorded.
fn assert_same(outcome: &Outcome, seven: &[u32], report: &[u32]) {
    assert_eq!(outcome.numbers(), *seven);
    let (line, details, types) = told(&outcome.verdict);
    let plain = u32::from(outcome.plain);
    let rest = [
        line,
        outcome.taken,
        outcome.fresh,
        details[0],
        details[1],
        plain,
    ];
    assert_eq!(rest, seven[1..]);
    assert_eq!(types, report);
}

/// The book holds what was recorded, and nothing else. A refused call leaves it.
fn assert_book(record: &mut Record, outcome: &Outcome, buffers: &Buffers) {
    let solved = record.one();
    if [1, 2, 3, 4, 5, 32].contains(&outcome.numbers()[0]) {
        assert_eq!(solved, 0);
        return assert!(buffers.book().iter().all(|word| *word == 0));
    }
    let mut solutions = buffers.solutions();
    for _ in 0..solved {
        let unknown = record.one();
        let nodes = record.one();
        let (found, ty) = solutions.next().expect("one more solution");
        assert_eq!((found, words(&ty)), (unknown, record.some(2 * nodes)));
    }
    assert_eq!(solutions.next(), None);
    for number in 0..outcome.fresh {
        assert_eq!(buffers.level(number), Some(record.one()));
    }
    for number in outcome.fresh..1000 {
        assert_eq!(buffers.level(number), Some(0));
    }
}

#[test]
fn recorded_answers() {
    let mut verdicts = BTreeMap::new();
    let mut calls = BTreeSet::new();
    for mut record in recorded() {
        let mut call = record.call();
        let outcome = call.put();
        let seven = record.some(7);
        let nodes = record.one();
        let report = record.some(2 * nodes);
        assert_same(&outcome, &seven, &report);
        assert_book(&mut record, &outcome, &call.buffers);
        assert_eq!(record.0.next(), None);
        verdicts.insert(seven[0], std::mem::discriminant(&outcome.verdict));
        calls.insert((seven[0], call.strict));
    }
    let numbers: Vec<u32> = verdicts.keys().copied().collect();
    assert_eq!(
        numbers,
        [0, 1, 2, 3, 4, 5, 11, 12, 13, 14, 15, 17, 18, 19, 21, 22, 23, 24, 25, 32, 39]
    );
    assert!(calls.contains(&(0, true)) && calls.contains(&(39, true)));
    assert!(!calls.contains(&(39, false)));
    for (number, verdict) in [
        (21, Verdict::CeilingReached),
        (22, Verdict::BoardFull),
        (23, Verdict::WrittenOutTooLong),
        (24, Verdict::NumbersUsedUp),
        (25, Verdict::BookFull),
        (39, Verdict::OutOfScope),
    ] {
        assert_eq!(verdicts[&number], std::mem::discriminant(&verdict));
    }
}
