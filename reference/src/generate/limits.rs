//! Plans that meet a limit exactly and plans that pass it by one, found by
//! growing families until the Rust's answer turns.

use super::types::{app, arrow, forall, sized, Ty, INT};
use super::Made;
use crate::oracle::{run_limited, under_limit, Door, Run, LIMIT, MOST_LIMIT, MOST_STEPS};
use crate::sheet::{line, read_plan, Line};
use std::collections::BTreeMap;

/// A plan found, with what it is.
#[derive(Debug, Clone)]
pub struct Found {
    pub title: String,
    pub made: Made,
    /// On one written-out type.
    pub limit: u32,
}

type Lines = Vec<Line>;

pub fn plans() -> Vec<Found> {
    [
        ceiling(),
        entries(),
        board_nodes(),
        arity_at_full_board(),
        written_expected(LIMIT),
        written_by_copying(),
        numbers(),
        solved(),
        solved_at_full_board(),
    ]
    .concat()
}

/// Limits on a written-out type that a caller picks, met and passed by one.
pub fn picked() -> Vec<Found> {
    let low = [1, 2, 3, 64].map(|limit| under_limit(limit, || written_declared(limit)));
    let above = under_limit(LIMIT + 1, || written_expected(LIMIT + 1));
    [low.concat(), above, highest()].concat()
}

/// The highest limit: a sheet has too few lines for such a type, and the book has
/// room for one solution of so many nodes at most.
pub fn highest() -> Vec<Found> {
    under_limit(MOST_LIMIT, || {
        let compared = Found {
            limit: MOST_LIMIT,
            ..found("15: 4,096 and 1,800 nodes", compared_late())
        };
        [written_late(MOST_LIMIT), vec![compared]].concat()
    })
}

pub(super) fn run(lines: &[Line]) -> Run {
    let plan = read_plan(lines).expect("a plan");
    run_limited(Door::First, &plan, MOST_STEPS)
}

pub(super) fn found(title: impl Into<String>, lines: Lines) -> Found {
    Found {
        title: title.into(),
        made: Made {
            ceiling: MOST_STEPS,
            lines,
        },
        limit: LIMIT,
    }
}

/// The first plans of a family that meet a limit and that pass it by one.
fn edge(
    title: &str,
    number: u32,
    limit: usize,
    peak: fn(&Run) -> usize,
    family: impl Iterator<Item = Lines>,
) -> Vec<Found> {
    let (mut met, mut passed) = (None, None);
    for lines in family {
        let run = run(&lines);
        let reached = run
            .passed
            .filter(|it| it.number == number)
            .map(|it| it.reached);
        if met.is_none() && run.passed.is_none() && peak(&run) == limit {
            let title = format!("{title}: meets {limit}, answer {}", run.answer.number);
            met = Some(found(title, lines));
        } else if passed.is_none() && reached == Some(limit + 1) {
            passed = Some(found(format!("{title}: passes {limit} by one"), lines));
        }
        if let (Some(met), Some(passed)) = (&met, &passed) {
            return vec![met.clone(), passed.clone()];
        }
    }
    panic!("{title}: the family does not meet its limit and pass it by one, {met:?} {passed:?}")
}

pub(crate) fn sheet(
    constructors: &[(u32, Ty)],
    context: &[(u32, Ty)],
    expected: Ty,
    term: Lines,
) -> Lines {
    let constructors = constructors.iter().cloned().collect::<BTreeMap<_, _>>();
    let context = context.iter().cloned().collect::<BTreeMap<_, _>>();
    super::sheet(&constructors, &context, &expected, &term)
}

pub(super) fn seven() -> Line {
    line(22, 7, 0)
}

/// `n30` with parameters before it.
pub(crate) fn making_n30(params: &[Ty]) -> Ty {
    params
        .iter()
        .rev()
        .fold(Ty::Con(30), |to, from| arrow(from.clone(), to))
}

const PADS: usize = 12;

/// The constructors that `padded` needs: n28 with parameters, n29 with none.
fn pad_constructors() -> [(u32, Ty); 2] {
    [(28, making_n30(&[INT; PADS])), (29, Ty::Con(30))]
}

/// A term below so many pattern variables, each one entry and one node.
fn padded(pads: usize, body: Lines) -> Lines {
    let mut term = vec![line(27, 0, 1), line(26, 29, 0), line(43, 28, PADS as i64)];
    term.extend((0..PADS).map(|at| match at < pads {
        true => line(42, 60 + at as i64, 0),
        false => line(41, 0, 0),
    }));
    term.extend(body);
    term
}

/// 7 + (7 + (.. + last)): the left operands wait on the board.
fn right_nest(levels: usize, last: Lines) -> Lines {
    let mut term = Vec::new();
    (0..levels).for_each(|_| term.extend([line(28, 1, 0), seven()]));
    term.extend(last);
    term
}

/// ((first + 7) + ..) + 7: each right operand is done before the rest.
fn left_nest(levels: usize, first: Lines) -> Lines {
    let mut term = vec![line(28, 1, 0); levels];
    term.extend(first);
    term.extend(vec![seven(); levels]);
    term
}

fn entries() -> Vec<Found> {
    let family = (160..180).flat_map(|levels| {
        (0..PADS).map(move |pads| {
            let term = padded(pads, right_nest(levels, vec![seven()]));
            sheet(&pad_constructors(), &[], INT, term)
        })
    });
    edge(
        "22 entries",
        22,
        limited::ENTRIES,
        |run| run.peaks.entries,
        family,
    )
}

/// Arms with a variable of 100 nodes each, the last one of `size` nodes.
fn wide_case(arms: usize, size: usize, last_args: i64) -> Lines {
    let constructors = [
        (20, making_n30(&[sized(100)])),
        (21, making_n30(&[sized(size)])),
        (29, Ty::Con(30)),
    ];
    let mut term = vec![line(27, 0, arms as i64), line(26, 29, 0)];
    for _ in 1..arms {
        term.extend([line(43, 20, 1), line(42, 50, 0), seven()]);
    }
    term.push(line(43, 21, last_args));
    term.extend((0..last_args).map(|_| line(42, 51, 0)));
    term.push(seven());
    sheet(&constructors, &[], INT, term)
}

fn board_nodes() -> Vec<Found> {
    let family = (1..200).map(|size| wide_case(40, size, 1));
    edge(
        "22 nodes",
        22,
        limited::NODES,
        |run| run.peaks.nodes,
        family,
    )
}

/// A pattern's Sub is pushed before its arity is tested: 22 goes before 14.
/// The last pattern's result type is tuned here, not its parameter.
fn arity_at_full_board() -> Vec<Found> {
    let family = (1..200).map(|size| {
        let constructors = [
            (20, making_n30(&[sized(100)])),
            (21, sized(size)),
            (29, Ty::Con(30)),
        ];
        let mut term = vec![line(27, 0, 40), line(26, 29, 0)];
        for _ in 1..40 {
            term.extend([line(43, 20, 1), line(42, 50, 0), seven()]);
        }
        term.extend([line(43, 21, 1), line(41, 0, 0), seven()]);
        sheet(&constructors, &[], INT, term)
    });
    edge(
        "22 before 14",
        22,
        limited::NODES,
        |run| run.peaks.nodes,
        family,
    )
}

/// An unknown is given the whole expected type.
fn written_expected(limit: u32) -> Vec<Found> {
    let context = [(40, forall(10, Ty::Var(10)))];
    let family = around(limit).map(|size| sheet(&[], &context, sized(size), vec![line(21, 40, 0)]));
    written("23 expected", limit, family)
}

/// A variable of the expected type.
fn written_declared(limit: u32) -> Vec<Found> {
    let family = around(limit).map(|size| {
        let context = [(40, sized(size))];
        sheet(&[], &context, sized(size), vec![line(21, 40, 0)])
    });
    written("23 declared", limit, family)
}

fn around(limit: u32) -> std::ops::Range<usize> {
    let limit = limit as usize;
    limit.saturating_sub(4).max(1)..limit + 6
}

fn written(title: &str, limit: u32, family: impl Iterator<Item = Lines>) -> Vec<Found> {
    let peak = |run: &Run| run.peaks.written;
    let found = edge(title, 23, limit as usize, peak, family);
    found
        .into_iter()
        .map(|found| Found { limit, ..found })
        .collect()
}

/// A type that grows by its solutions: n41 makes 32 copies of its argument,
/// n42 makes 31 copies of that, with a few nodes more.
fn written_by_copying() -> Vec<Found> {
    let making = |parts: Vec<Ty>| forall(10, arrow(Ty::Var(10), Ty::Product(parts)));
    let family = (0..4).map(|more| {
        let context = [
            (40, forall(10, arrow(Ty::Var(10), INT))),
            (41, making(vec![Ty::Var(10); 32])),
            (
                42,
                making([vec![Ty::Var(10); 31], vec![INT; more]].concat()),
            ),
        ];
        let applied = [40, 42, 41].into_iter();
        let applied = applied.flat_map(|name| [line(24, 0, 0), line(21, name, 0)]);
        sheet(&[], &context, INT, applied.chain([seven()]).collect())
    });
    written("23 copying", LIMIT, family)
}

/// The nodes of a solution that is copied, and how often.
const COPIED: usize = 61;
const COPIES: usize = 66;

/// n30 with two arguments.
fn in_n30(first: Ty, second: Ty) -> Ty {
    app(app(Ty::Con(30), first), second)
}

/// The variables of `late`: n40 takes a type and copies of it, with a few nodes
/// more, and n41 knows that type.
fn late_context(more: usize) -> [(u32, Ty); 2] {
    let copies = [vec![Ty::Var(10); COPIES], vec![INT; more]].concat();
    let copied = Ty::Product(vec![INT; COPIED - 1]);
    [
        (40, forall(10, in_n30(Ty::Var(10), Ty::Product(copies)))),
        (41, forall(11, in_n30(copied, Ty::Var(11)))),
    ]
}

/// A term whose type grows after it was compared: n40 or n41.
fn late() -> Lines {
    let less = [line(29, 0, 0), line(28, 5, 0), seven(), seven()];
    [&less[..], &[line(21, 40, 0), line(21, 41, 0)]].concat()
}

/// It is applied, which it can't be.
fn written_late(limit: u32) -> Vec<Found> {
    let family = (0..10).map(|more| {
        let term = [vec![line(24, 0, 0)], late(), vec![seven()]].concat();
        sheet(&[], &late_context(more), INT, term)
    });
    written("23 late", limit, family)
}

/// 4,096 nodes beside an expected type that takes most of a sheet.
fn compared_late() -> Lines {
    sheet(&[], &late_context(5), sized(1800), late())
}

/// A sum of so many sevens that is as flat as can be: a number for each line.
fn flat_sum(leaves: usize) -> Lines {
    if leaves == 1 {
        return vec![seven()];
    }
    let half = leaves / 2;
    [
        vec![line(28, 1, 0)],
        flat_sum(leaves - half),
        flat_sum(half),
    ]
    .concat()
}

/// 1,000 fresh numbers exactly, and one more.
pub fn numbers() -> Vec<Found> {
    let family = (495..505).flat_map(|leaves| {
        let below_case = [line(27, 0, 1), seven(), line(41, 0, 0)];
        let sum = flat_sum(leaves);
        [sum.clone(), [&below_case[..], &sum].concat()].map(|term| sheet(&[], &[], INT, term))
    });
    edge("24", 24, limited::NUMBERS, |run| run.peaks.numbers, family)
}

/// n42 applied to a Case whose arms all give n40, of `size` nodes.
fn many_solutions(arms: usize, sums: usize) -> Lines {
    let mut term = vec![line(24, 0, 0), line(21, 42, 0), line(27, 0, arms as i64)];
    term.extend(left_nest(sums, vec![seven()]));
    (0..arms).for_each(|_| term.extend([line(41, 0, 0), line(21, 40, 0)]));
    term
}

fn solving_context(size: usize) -> [(u32, Ty); 2] {
    let any_to_int = forall(10, arrow(Ty::Var(10), INT));
    [(40, sized(size)), (42, any_to_int)]
}

fn solved() -> Vec<Found> {
    let family = (200..220).flat_map(|size| {
        (0..30).map(move |sums| {
            let term = many_solutions(17, sums);
            sheet(&[], &solving_context(size), INT, term)
        })
    });
    edge("25", 25, limited::SOLVED, |run| run.peaks.solved, family)
}

/// Many solutions first, then a split (n43 as an unknown) on a full board.
fn split_late(levels: usize, pads: usize, size: usize, sums: usize) -> Lines {
    let [large, to_int] = solving_context(size);
    let context = [large, to_int, (43, arrow(INT, INT))];
    let split = vec![line(24, 0, 0), line(21, 43, 0), seven()];
    let mut term = vec![line(28, 1, 0)];
    term.extend(padded(pads, right_nest(levels, split)));
    term.extend(many_solutions(17, sums));
    sheet(&pad_constructors(), &context, INT, term)
}

/// A split gives its solution before it pushes: 25 goes before 22. One plan is
/// refused by the push after the split's solution, the other by the solution.
fn solved_at_full_board() -> Vec<Found> {
    let number = |lines: &Lines| run(lines).answer.number;
    let full = (150..180).flat_map(|levels| (0..PADS).map(move |pads| (levels, pads)));
    let full = full.into_iter().find(|(levels, pads)| {
        let lines = split_late(*levels, *pads, 100, 0);
        number(&lines) == 22 && splits_last(&lines)
    });
    let (levels, pads) = full.expect("a split fills the board");
    let plan = |size, sums| split_late(levels, pads, size, sums);
    let fits = |size: &usize| number(&plan(*size, 0)) == 22;
    let size = (100..300).take_while(fits).last().expect("100 fits");
    let sums = (0..100).find(|sums| number(&plan(size, *sums)) == 25);
    let sums = sums.expect("enough sums pass the limit");
    let (before, after) = (plan(size, sums - 1), plan(size, sums));
    assert!(splits_last(&before));
    vec![
        found("25 before 22: the push after a split is refused", before),
        found("25 before 22: the split's solution is refused", after),
    ]
}

/// Whether the refused step gave a solution before it was refused.
fn splits_last(lines: &Lines) -> bool {
    let plan = read_plan(lines).expect("a plan");
    let whole = run_limited(Door::First, &plan, MOST_STEPS).answer;
    let before = run_limited(Door::First, &plan, whole.taken - 1).answer;
    whole.solutions.len() > before.solutions.len()
}

/// `levels` type Apps over a type; comparing two such types that differ only
/// at the bottom takes a step for each node.
fn spine(levels: usize, bottom: Ty) -> Ty {
    (0..levels).fold(bottom, |ty, _| app(ty, INT))
}

/// A Case whose arms compare spines, each in an unknown of its own.
fn comparing_case(arms: usize) -> Lines {
    let mut term = vec![line(27, 0, arms as i64), line(26, 29, 0)];
    for _ in 0..arms {
        term.extend([line(43, 21, 1), line(43, 20, 0), seven()]);
    }
    term
}

fn many_steps(arms: usize, sums: usize, pads: usize) -> Lines {
    const LEVELS: usize = 25;
    let mut constructors = vec![
        (20, forall(10, spine(LEVELS, Ty::Var(10)))),
        (21, making_n30(&[spine(LEVELS, INT)])),
    ];
    constructors.extend(pad_constructors());
    let mut term = vec![line(28, 1, 0); 5];
    term.extend(comparing_case(arms));
    (0..4).for_each(|_| term.extend(comparing_case(36)));
    term.extend(padded(pads, left_nest(sums, vec![seven()])));
    sheet(&constructors, &[], INT, term)
}

/// 10,000 entries exactly, and one more.
pub fn ceiling() -> Vec<Found> {
    let taken = |lines: &Lines| {
        let run = run(lines);
        (run.answer.number, run.answer.taken)
    };
    let full = (0, MOST_STEPS);
    let arms = (1..36)
        .rev()
        .find(|arms| taken(&many_steps(*arms, 0, 0)).0 == 0);
    let arms = arms.expect("fewer arms end in time");
    for sums in 0..20 {
        for pads in 0..PADS {
            let lines = many_steps(arms, sums, pads);
            if taken(&lines) != full {
                continue;
            }
            let more = many_steps(arms, sums, pads + 1);
            assert_eq!(taken(&more), (21, MOST_STEPS));
            return vec![
                found("21: all of 10,000 entries, answer 0", lines),
                found("21: one entry remains after 10,000", more),
            ];
        }
    }
    panic!("no plan of exactly 10,000 entries")
}
