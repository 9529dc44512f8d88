//! The reader's refusals, round trips, the wall, the plain mark, and both
//! inclusions of the Rust on generated plans (`answer_plan` panics where they differ).

mod grown;
mod listing;
mod raw;
mod scope;
mod writes;

use crate::generate::{limits, random, small};
use crate::mark::is_plain;
use crate::oracle::{
    answer_call, answer_lines, answer_plan, answer_sheet, sizes, under_limit, Answer, Door, LIMIT,
    MOST_LIMIT, MOST_STEPS,
};
use crate::sheet::{line, read, read_lines, read_plan, write, Line, Refusal, LINE};
use crate::wall::{difference, long_sheet, plans};
use crate::{record, with_stack};

const FIRST: &str = "  3                   0    0\n 12                   1    0\n  4                   0    0\n 22                   7    0\n";

fn refusal_of(sheet: &[u8]) -> Option<(u32, u32)> {
    read(sheet)
        .err()
        .map(|Refusal { number, line }| (number, line))
}

/// The first plan with one line spelt otherwise.
fn with_line(at: usize, text: &str) -> Vec<u8> {
    assert_eq!(text.len(), LINE);
    let mut sheet = FIRST.as_bytes().to_vec();
    sheet[at * LINE..(at + 1) * LINE].copy_from_slice(text.as_bytes());
    sheet
}

fn lines(numbers: &[i64]) -> Vec<Line> {
    numbers.chunks(3).map(|n| line(n[0], n[1], n[2])).collect()
}

fn refused_plan(numbers: &[i64]) -> Option<(u32, u32)> {
    refusal_of(&write(&lines(numbers)))
}

#[test]
fn first_plan_is_read() {
    assert_eq!(refusal_of(FIRST.as_bytes()), None);
    let written = write(&lines(&[3, 0, 0, 12, 1, 0, 4, 0, 0, 22, 7, 0]));
    assert_eq!(written, FIRST.as_bytes());
}

#[test]
fn lengths_are_refused() {
    assert_eq!(refusal_of(b""), Some((3, 0)));
    assert_eq!(refusal_of(&FIRST.as_bytes()[1..]), Some((3, 0)));
    assert_eq!(refusal_of(&write(&long_sheet(2001))), Some((3, 0)));
    assert_eq!(with_stack(|| refusal_of(&write(&long_sheet(2000)))), None);
}

#[test]
fn spellings_are_refused() {
    let bad = [
        " 22                  07    0\n",
        " 22                  +7    0\n",
        " 22                  -0    0\n",
        " 22                   -    0\n",
        " 22                 7      0\n",
        " 22                        0\n",
        "                      7    0\n",
        " 22                   7     \n",
        "022                   7    0\n",
        "-22                   7    0\n",
        " 22                   7   -1\n",
        " 22                   7    0 ",
        " 22                   7    0\r",
        " 22\t                  7    0\n",
        " 22 9223372036854775808    0\n",
        " 22-9223372036854775809    0\n",
        " 22                 7 7    0\n",
        " 21                  -7    0\n",
    ];
    for text in bad {
        assert_eq!(refusal_of(&with_line(3, text)), Some((4, 4)), "{text}");
    }
    for text in [
        " 22-9223372036854775808    0\n",
        " 22 9223372036854775807    0\n",
    ] {
        assert_eq!(refusal_of(&with_line(3, text)), None, "{text}");
    }
}

#[test]
fn spelling_goes_before_grammar() {
    let mut sheet = write(&lines(&[999, 0, 0, 12, 1, 0, 4, 0, 0, 22, 7, 0]));
    assert_eq!(refusal_of(&sheet), Some((5, 1)));
    sheet[4 * LINE - 1] = b' ';
    assert_eq!(refusal_of(&sheet), Some((4, 4)));
}

#[test]
fn plans_are_refused() {
    let end = [3, 0, 0, 12, 1, 0, 4, 0, 0, 22, 7, 0];
    let refused = |before: &[i64]| refused_plan(&[before, &end].concat());
    assert_eq!(
        refused(&[1, 20, 0, 12, 1, 0, 1, 20, 0, 12, 1, 0]),
        Some((5, 3))
    );
    assert_eq!(refused(&[1, 20, 0, 12, 1, 0, 2, 20, 0, 12, 1, 0]), None);
    assert_eq!(
        refused(&[2, 20, 0, 12, 1, 0, 1, 21, 0, 12, 1, 0]),
        Some((5, 3))
    );
    assert_eq!(refused(&[1, 0, 0, 12, 1, 0]), Some((5, 1)));
    assert_eq!(refused(&[1, 10000, 0, 12, 1, 0]), Some((5, 1)));
    assert_eq!(refused(&[1, 20, 1, 12, 1, 0]), Some((5, 1)));
    assert_eq!(refused(&[1, 20, 0, 17, 1, 0]), Some((5, 2)));
    assert_eq!(refused(&[1, 20, 0, 16, 0, 100, 12, 1, 0]), Some((5, 2)));
    assert_eq!(refused(&[1, 20, 0, 16, 0, 1]), Some((5, 3)));
    assert_eq!(
        refused(&[1, 20, 0, 13, 1, 0, 12, 1, 0, 12, 1, 0]),
        Some((5, 2))
    );
    assert_eq!(refused(&[22, -7, 0]), Some((5, 1)));
    assert_eq!(refused_plan(&end[..9]), Some((5, 4)));
    assert_eq!(
        refused_plan(&[&end[..], &[22, 7, 0]].concat()),
        Some((5, 5))
    );
    assert_eq!(
        refused_plan(&[&end[..9], &[28, 7, 0]].concat()),
        Some((5, 4))
    );
    assert_eq!(
        refused_plan(&[&end[..9], &[27, 0, 1, 22, 7, 0, 22, 7, 0]].concat()),
        Some((5, 6))
    );
}

#[test]
fn what_is_written_is_read() {
    for made in random(5, 2000) {
        let sheet = write(&made.lines);
        assert_eq!(read_lines(&sheet), Ok(made.lines.clone()));
        assert!(read_plan(&made.lines).is_ok());
    }
}

#[test]
fn wall_is_as_document_01_says() {
    for wall in plans() {
        let answer = answer_lines(Door::First, &wall.lines, wall.ceiling);
        assert_eq!(difference(&wall, &answer), "", "{}", wall.title);
    }
}

/// Turned round to the other side it would be 15, 15, 6.
#[test]
fn instantiate_right_is_as_in_the_rust() {
    let plan = lines(&[
        2, 40, 0, 13, 0, 0, 14, 10, 0, 13, 0, 0, 11, 10, 0, 11, 10, 0, 12, 1, 0, 3, 0, 0, 12, 3, 0,
        4, 0, 0, 21, 40, 0,
    ]);
    let Answer {
        number,
        taken,
        fresh,
        ..
    } = answer_lines(Door::First, &plan, MOST_STEPS);
    assert_eq!((number, taken, fresh), (15, 14, 6));
}

#[test]
fn both_inclusions_agree_on_random_plans() {
    with_stack(|| {
        for made in random(6, 4000) {
            answer_lines(Door::First, &made.lines, made.ceiling);
        }
    });
}

#[test]
fn both_inclusions_agree_on_small_plans() {
    for made in small::plans().iter().step_by(10) {
        answer_lines(Door::First, &made.lines, made.ceiling);
    }
}

#[test]
fn limits_are_met_and_passed() {
    let numbers = with_stack(|| {
        let numbers = limits::plans().into_iter().map(|found| {
            let plan = read_plan(&found.made.lines).expect("a plan");
            let run = answer_plan(Door::First, &plan, found.made.ceiling);
            (found.title, run.answer.number)
        });
        numbers.collect::<Vec<_>>()
    });
    for number in 21..=25 {
        assert!(
            numbers.iter().any(|(_, found)| *found == number),
            "{number}"
        );
    }
}

#[test]
fn ceiling_is_refused_first() {
    for door in [Door::First, Door::Strict] {
        let seven = |ceiling| answer_sheet(door, b"", ceiling).seven();
        assert_eq!(seven(MOST_STEPS + 1), [1, 0, 0, 0, 0, 0, 0]);
        assert_eq!(seven(MOST_STEPS), [3, 0, 0, 0, 0, 0, 0]);
    }
}

/// 7 as Int → Int writes out three nodes.
#[test]
fn limits_that_a_caller_picks() {
    let arrow = write(&lines(&[
        3, 0, 0, 13, 0, 0, 12, 1, 0, 12, 1, 0, 4, 0, 0, 22, 7, 0,
    ]));
    let number = |limit| answer_call(Door::First, &arrow, MOST_STEPS, limit, sizes(limit)).number;
    assert_eq!(
        [1, 2, 3, LIMIT, MOST_LIMIT].map(number),
        [23, 23, 15, 15, 15]
    );
    assert_eq!([0, MOST_LIMIT + 1, u32::MAX].map(number), [32, 32, 32]);
}

#[test]
fn refusals_before_the_sheet_are_in_order() {
    for door in [Door::First, Door::Strict] {
        let number =
            |ceiling, limit, lengths| answer_call(door, b"", ceiling, limit, lengths).number;
        for short in [[12_288, 11_192, 3], [12_288, 11_191, 4]] {
            assert_eq!(number(MOST_STEPS + 1, 0, short), 1);
            assert_eq!(number(MOST_STEPS, 0, short), 32);
            assert_eq!(number(MOST_STEPS, 1, short), 2);
        }
        assert_eq!(number(MOST_STEPS, 1, [12_288, 11_192, 4]), 3);
    }
}

#[test]
fn picked_limits_are_met_and_passed() {
    with_stack(|| {
        for found in limits::picked() {
            let plan = read_plan(&found.made.lines).expect("a plan");
            let answer = || answer_plan(Door::First, &plan, found.made.ceiling);
            let run = under_limit(found.limit, answer);
            let passes = found.title.contains("passes");
            assert_eq!(run.answer.number == 23, passes, "{}", found.title);
        }
    });
}

#[test]
fn record_line_is_spelt_as_described() {
    let made = plans().into_iter().next().expect("a plan on the wall");
    let made = crate::generate::Made {
        ceiling: made.ceiling,
        lines: made.lines,
    };
    let expected = "10000 4 3 0 0 12 1 0 4 0 0 22 7 0 0 0 5 1 0 0 1 0 1 0 1 12 1 0";
    for (door, call) in [(Door::First, 1), (Door::Strict, 2)] {
        let line = record::answered_line(door, &made);
        assert_eq!(line, format!("{call} {expected}"));
    }
}

/// Whether a term as Int is plain beside the entry n20 : ∀n11. n11 of that kind.
fn plain_beside(kind: i64, term: &[i64]) -> bool {
    let entry = [
        kind, 20, 0, 14, 11, 0, 11, 11, 0, 3, 0, 0, 12, 1, 0, 4, 0, 0,
    ];
    let plan = read_plan(&lines(&[&entry, term].concat()));
    is_plain(&plan.expect("a plan"))
}

#[test]
fn seven_beside_an_unused_entry_is_plain() {
    assert!(plain_beside(1, &[22, 7, 0]) && plain_beside(2, &[22, 7, 0]));
}

/// On a line of kind 21, 26 or 43, and on none of kind 42 or 30.
#[test]
fn a_name_counts_for_entries_of_both_kinds() {
    for kind in [1, 2] {
        assert!(!plain_beside(kind, &[21, 20, 0]) && !plain_beside(kind, &[26, 20, 0]));
        assert!(!plain_beside(
            kind,
            &[27, 0, 1, 22, 7, 0, 43, 20, 0, 22, 7, 0]
        ));
        assert!(plain_beside(
            kind,
            &[27, 0, 1, 22, 7, 0, 42, 20, 0, 22, 7, 0]
        ));
        assert!(plain_beside(kind, &[30, 20, 0]) && plain_beside(kind, &[21, 21, 0]));
    }
}
