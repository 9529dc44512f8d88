//! W12: levels, the strict call, the book's three words. `answer_plan` panics
//! where the two calls differ in anything but 39, or two ways to the levels.

use super::lines;
use crate::checks::expected;
use crate::generate::{scoped, Made};
use crate::oracle::{answer_lines, answer_sheet, sizes, Answer, Door, LIMIT, MOST_STEPS};
use crate::sheet::write;
use crate::with_stack;

/// Number, taken, fresh and levels.
type Told = (u32, u32, u32, Vec<u32>);

fn told(answer: Answer) -> Told {
    (answer.number, answer.taken, answer.fresh, answer.levels)
}

fn both(numbers: &[i64]) -> [Told; 2] {
    let plan = lines(numbers);
    [Door::First, Door::Strict].map(|door| told(answer_lines(door, &plan, MOST_STEPS)))
}

/// A Case with no arm, of 7, as Int → ∀n11. n11.
const ANY: [i64; 24] = [
    3, 0, 0, 13, 0, 0, 12, 1, 0, 14, 11, 0, 11, 11, 0, 4, 0, 0, 27, 0, 0, 22, 7, 0,
];

/// A Case with no arm, of 7, applied to 7, as Int.
const APPLIED: [i64; 21] = [
    3, 0, 0, 12, 1, 0, 4, 0, 0, 24, 0, 0, 27, 0, 0, 22, 7, 0, 22, 7, 0,
];

#[test]
fn given_plans_are_as_w12_says() {
    let levels = vec![0, 1, 2, 0, 0, 0];
    let accepted = (0, 16, 6, levels.clone());
    assert_eq!(both(&ANY), [accepted, (39, 11, 6, levels.clone())]);
    let named = both(&[
        2, 46, 0, 14, 12, 0, 11, 12, 0, 3, 0, 0, 13, 0, 0, 12, 1, 0, 14, 11, 0, 11, 11, 0, 4, 0, 0,
        21, 46, 0,
    ]);
    let of_named = vec![0, 1, 0, 0, 0];
    assert_eq!(named, [(0, 14, 5, of_named.clone()), (39, 9, 5, of_named)]);
    let product = both(&[
        3, 0, 0, 13, 0, 0, 12, 1, 0, 14, 11, 0, 16, 0, 2, 11, 11, 0, 14, 12, 0, 11, 12, 0, 4, 0, 0,
        27, 0, 0, 22, 7, 0,
    ]);
    let refused = (17, 11, 6, levels);
    assert_eq!(product, [refused.clone(), refused]);
}

#[test]
fn out_of_scope_ends_a_run_as_a_full_board_does() {
    let strict = answer_lines(Door::Strict, &lines(&ANY), MOST_STEPS);
    assert_eq!(strict.seven(), [39, 0, 11, 6, 0, 0, 0]);
    assert_eq!(strict.report, []);
    let first = answer_lines(Door::First, &lines(&ANY), MOST_STEPS);
    assert_eq!(strict.solutions, first.solutions[..3]);
}

/// Entries, nodes, written out, fresh, solutions, in the place of document 01's.
fn under(limits: [usize; 5], numbers: &[i64]) -> (Told, usize) {
    let sheet = write(&lines(numbers));
    with_stack(move || {
        limited::set_limits(limits);
        let first = answer_sheet(Door::First, &sheet, MOST_STEPS);
        assert_eq!(first, answer_sheet(Door::Strict, &sheet, MOST_STEPS));
        let solutions = first.solutions.len();
        (told(first), solutions)
    })
}

/// Unknown 0 is split by ANY, unknown 1 by APPLIED.
#[test]
fn a_split_broken_off_shows_the_level_of_the_unknown_split() {
    let second = under([512, 4096, 1024, 4, 4096], &ANY);
    assert_eq!(second, ((24, 9, 4, vec![0, 1, 2, 0]), 2));
    let solution = under([512, 4096, 1024, 1000, 4], &ANY);
    assert_eq!(solution, ((25, 9, 5, vec![0, 1, 2, 0, 0]), 2));
    let second = under([512, 4096, 1024, 5, 4096], &APPLIED);
    assert_eq!(second, ((24, 10, 5, vec![0, 1, 2, 3, 1]), 2));
    let solution = under([512, 4096, 1024, 1000, 4], &APPLIED);
    assert_eq!(solution, ((25, 10, 6, vec![0, 1, 2, 3, 1, 1]), 2));
}

#[test]
fn a_solution_lowers_the_unknowns_in_it() {
    // n28, a Product of n11 twice, below a type abstraction of n11.
    let product = both(&[
        2, 28, 0, 16, 0, 2, 11, 11, 0, 11, 11, 0, 3, 0, 0, 14, 11, 0, 16, 0, 2, 11, 11, 0, 11, 11,
        0, 4, 0, 0, 25, 11, 0, 21, 28, 0,
    ]);
    let refused = (15, 12, 4, vec![0, 1, 2, 1]);
    assert_eq!(product, [refused.clone(), refused]);
}

/// Words 3k, 3k + 1 and 3k + 2, and the nodes from word 3,000 on.
#[test]
fn book_has_three_words_for_a_number() {
    let answer = answer_lines(Door::Strict, &lines(&ANY), MOST_STEPS);
    let before = sizes(LIMIT).map(|size| vec![7; size + 1]);
    let [_, book, _] = expected(&answer, LIMIT, &before);
    let start = [3004, 3, 0, 3002, 1, 1, 3000, 1, 2];
    assert_eq!(book[..9], start);
    assert_eq!(book[3000..3010], [12, 1, 12, 1, 13, 0, 17, 3, 17, 4]);
    assert!(book[9..3000]
        .iter()
        .chain(&book[3010..11_192])
        .all(|word| *word == 0));
    assert_eq!(book[11_192], 7);
}

/// A title that begins with a number has the strict call's; amid a split the last
/// unknown made has not its own number.
#[test]
fn made_plans_are_what_they_are_called() {
    with_stack(|| {
        for (title, Made { ceiling, lines }) in scoped::plans() {
            let [first, strict] =
                [Door::First, Door::Strict].map(|door| answer_lines(door, &lines, ceiling));
            let said = title
                .split([':', ' '])
                .next()
                .and_then(|word| word.parse().ok());
            assert_eq!(said.unwrap_or(strict.number), strict.number, "{title}");
            let broken_off = title.contains("unknown") && [22, 24, 25].contains(&first.number);
            let newest = first.levels.last().expect("a number");
            assert!(!broken_off || *newest + 1 < first.fresh, "{title}");
        }
    });
}

#[test]
fn calls_differ_by_scope_alone() {
    let plans = scoped::plans()
        .into_iter()
        .filter(|(_, made)| made.lines.len() < 100);
    let numbers = plans.map(|(_, made)| {
        [Door::First, Door::Strict].map(|door| answer_lines(door, &made.lines, made.ceiling).number)
    });
    let given = [[0, 39], [0, 39], [17, 17], [21, 39], [21, 21], [21, 21]];
    let older = [[0, 0], [0, 0], [0, 0], [0, 39], [0, 39]];
    let inherited = [[0, 39]; 5];
    let lowered = [[0, 39], [0, 39], [0, 39], [0, 0], [0, 39], [0, 39], [0, 39]];
    let first_refused = [[15, 15], [0, 39]];
    let all = [&given[..], &older, &inherited, &lowered, &first_refused].concat();
    assert_eq!(numbers.collect::<Vec<_>>(), all);
}

/// Some one in ten of the strict answers is 39.
#[test]
fn random_plans_are_out_of_scope_now_and_then() {
    const COUNT: usize = 4000;
    let out = with_stack(|| {
        let plans = scoped::random(7, COUNT);
        let numbers =
            plans.map(|made| answer_lines(Door::Strict, &made.lines, made.ceiling).number);
        numbers.filter(|number| *number == 39).count()
    });
    assert!((COUNT / 12..COUNT / 7).contains(&out), "{out} of {COUNT}");
}

#[test]
fn both_calls_agree_under_low_limits() {
    with_stack(|| {
        for [entries, fresh, solved] in [[9, 9, 12], [12, 7, 20], [7, 20, 9]] {
            limited::set_limits([entries, limited::NODES, limited::WRITTEN, fresh, solved]);
            for made in scoped::random(8, 2000) {
                answer_lines(Door::Strict, &made.lines, made.ceiling);
            }
        }
    });
}
