//! Change request W12: the plans given with it, under both calls.

mod common;

use common::{dirty, sheet, SEVEN_AS_INT};
use kirvoghus::{
    check, check_strict, check_strict_with, check_with, report_words, Buffers, Outcome, Verdict,
    BOARD_WORDS, BOOK_WORDS, LIMIT, MOST_STEPS,
};

/// A Case of 7 with no arm, as Int → ∀n11. n11.
const ANY: [i64; 24] = [
    3, 0, 0, 13, 0, 0, 12, 1, 0, 14, 11, 0, 11, 11, 0, 4, 0, 0, 27, 0, 0, 22, 7, 0,
];

/// n46, a context variable of type ∀n12. n12, as the same.
const NAMED: [i64; 30] = [
    2, 46, 0, 14, 12, 0, 11, 12, 0, 3, 0, 0, 13, 0, 0, 12, 1, 0, 14, 11, 0, 11, 11, 0, 4, 0, 0, 21,
    46, 0,
];

/// The Case as Int → ∀n11. (n11 × ∀n12. n12).
const PRODUCT: [i64; 33] = [
    3, 0, 0, 13, 0, 0, 12, 1, 0, 14, 11, 0, 16, 0, 2, 11, 11, 0, 14, 12, 0, 11, 12, 0, 4, 0, 0, 27,
    0, 0, 22, 7, 0,
];

type Check = fn(&[u8], u32, &mut Buffers) -> Outcome;

fn checked(check: Check, numbers: &[i64]) -> (Outcome, Buffers) {
    let mut buffers = dirty(BOARD_WORDS, BOOK_WORDS, report_words(LIMIT));
    let outcome = check(&sheet(numbers), MOST_STEPS, &mut buffers);
    (outcome, buffers)
}

/// The levels of the numbers made.
fn levels(outcome: &Outcome, buffers: &Buffers) -> Vec<u32> {
    let level = |number| buffers.level(number).expect("a level");
    assert!((outcome.fresh..1000).all(|number| level(number) == 0));
    (0..outcome.fresh).map(level).collect()
}

/// Number, taken and fresh numbers under the first and under the strict call; the
/// levels are the same.
fn both(numbers: &[i64], told: [[u32; 3]; 2], of_both: &[u32]) -> [Outcome; 2] {
    let calls: [(Check, [u32; 3]); 2] = [(check, told[0]), (check_strict, told[1])];
    calls.map(|(check, told)| {
        let (outcome, buffers) = checked(check, numbers);
        let [number, _, taken, fresh, ..] = outcome.numbers();
        assert_eq!([number, taken, fresh], told);
        assert_eq!(levels(&outcome, &buffers), of_both);
        outcome
    })
}

#[test]
fn a_case_with_no_arm() {
    let [first, strict] = both(&ANY, [[0, 16, 6], [39, 11, 6]], &[0, 1, 2, 0, 0, 0]);
    assert!(first.is_accepted() && !strict.is_accepted());
    assert_eq!(strict.verdict, Verdict::OutOfScope);
    assert_eq!(strict.numbers(), [39, 0, 11, 6, 0, 0, 0]);
}

#[test]
fn a_variable_of_any_type() {
    let [_, strict] = both(&NAMED, [[0, 14, 5], [39, 9, 5]], &[0, 1, 0, 0, 0]);
    assert_eq!(strict.verdict, Verdict::OutOfScope);
}

#[test]
fn a_quantifier_in_the_solution_comes_first() {
    let [first, strict] = both(&PRODUCT, [[17, 11, 6]; 2], &[0, 1, 2, 0, 0, 0]);
    assert!(matches!(first.verdict, Verdict::InstantiationError { .. }));
    assert_eq!(first, strict);
}

#[test]
fn words_after_out_of_scope() {
    let (_, strict) = checked(check_strict, &ANY);
    let mut book = vec![0; BOOK_WORDS];
    book[..9].copy_from_slice(&[3004, 3, 0, 3002, 1, 1, 3000, 1, 2]);
    book[3000..3010].copy_from_slice(&[12, 1, 12, 1, 13, 0, 17, 3, 17, 4]);
    assert_eq!(strict.book(), book);
    assert!(strict.board().iter().all(|word| *word == 0));
    assert!(strict.report().iter().all(|word| *word == 0));
    // The first call goes on from there.
    let (_, first) = checked(check, &ANY);
    let (first, strict) = (first.solutions(), strict.solutions());
    assert!(first.count() > 3);
    assert_eq!(strict.count(), 3);
}

#[test]
fn ceilings_around_the_refused_step() {
    let mut buffers = Buffers::new();
    for (ceiling, number) in [(10, 21), (11, 39), (12, 39)] {
        let strict = check_strict(&sheet(&ANY), ceiling, &mut buffers);
        assert_eq!(strict.numbers()[..3], [number, 0, ceiling.min(11)]);
    }
}

#[test]
fn the_calls_agree_where_no_level_is_in_the_way() {
    for plan in [&SEVEN_AS_INT[..], &PRODUCT] {
        assert_eq!(checked(check, plan), checked(check_strict, plan));
    }
}

/// The expected type, of four nodes, is written out.
#[test]
fn limits() {
    for (limit, number) in [(3, 23), (4, 39), (4096, 39)] {
        let mut buffers = Buffers::for_limit(limit);
        let strict = check_strict_with(&sheet(&ANY), MOST_STEPS, limit, &mut buffers);
        assert_eq!(strict.numbers()[0], number);
        let first = check_with(&sheet(&ANY), MOST_STEPS, limit, &mut buffers);
        assert_eq!(first.numbers()[0], if number == 39 { 0 } else { 23 });
    }
}
