//! Plans that are refused amid a split, where the levels of its two unknowns
//! show: at the number limit, on a full board, in a full book. What fills them
//! is judged before the split, and grown until the refusal falls there. A full
//! board refuses no application before its solution: the function's Inf stood
//! above the InfApp, where the two TVars come to stand.

use super::limits::{making_n30, run, seven, sheet};
use super::types::{app, arrow, forall, sized, Ty, INT};
use super::Made;
use crate::oracle::{answer_lines, Door, Run, MOST_STEPS};
use crate::sheet::{line, Line};

type Lines = Vec<Line>;
type Entries = Vec<(u32, Ty)>;
type Titled = Vec<(String, Made)>;

/// ∀n10. n10 → Int, ∀n10. n10 → n10 and ∀n10. n10 → n31 n10.
const TAKER: i64 = 40;
const LINK: i64 = 41;
const INTO: i64 = 42;

/// A constructor of type n30.
const VALUE: i64 = 23;

/// The most that a term is filled with beyond what is always there.
const MOST: usize = 120;

/// A term that is Int, with the entries that it needs beside those.
#[derive(Default)]
struct Term {
    title: &'static str,
    constructors: Entries,
    context: Entries,
    lines: Lines,
}

/// By what they show.
pub fn plans() -> Titled {
    let mut plans = Vec::new();
    for term in lowered() {
        plans.extend(first("24", &term, numbers, splits_lowered));
        plans.extend(first("22", &term, entries, splits_lowered));
        plans.extend(first("25", &term, solved, splits_lowered).drain(..1));
    }
    let applied = applied();
    plans.extend(first("24", &applied, numbers, splits_own));
    plans.extend(first("22", &applied, entries, splits_own));
    plans.extend(first("25", &applied, solved, splits_own).drain(..1));
    plans.extend(first("22", &ranked(), entries, makes_universal));
    plans.extend(first("25", &linked(), solved, would_lower));
    plans.extend(at_once());
    plans
}

/// The plans with the first fillings, one after the other, at which a run is as
/// asked.
fn first(
    number: &str,
    term: &Term,
    filled: fn(&Term, usize) -> Lines,
    is_asked: fn(&Lines) -> bool,
) -> Titled {
    let plans = (0..MOST).map(|more| filled(term, more));
    let plans = plans.skip_while(|lines| !is_asked(lines));
    let plans: Vec<_> = plans.take_while(is_asked).collect();
    assert!(!plans.is_empty(), "{number}: {}", term.title);
    let titled = plans.into_iter().enumerate();
    titled
        .map(|(at, lines)| (format!("{number}: {}, {}", term.title, at + 1), made(lines)))
        .collect()
}

fn made(lines: Lines) -> Made {
    Made {
        ceiling: MOST_STEPS,
        lines,
    }
}

/// The level of the unknown whose split a limit broke off, and its number.
fn broken_off(lines: &Lines) -> Option<(u32, u32)> {
    let Run {
        answer,
        passed: Some(_),
        split: Some(unknown),
        ..
    } = run(lines)
    else {
        return None;
    };
    Some((answer.levels[unknown as usize], unknown))
}

fn splits_lowered(lines: &Lines) -> bool {
    broken_off(lines).is_some_and(|(level, unknown)| level < unknown)
}

fn splits_own(lines: &Lines) -> bool {
    broken_off(lines).is_some_and(|(level, unknown)| level == unknown)
}

/// Whether the last number is a universal's, and the push after it refused.
fn makes_universal(lines: &Lines) -> bool {
    let run = run(lines);
    let levels = &run.answer.levels;
    run.passed.is_some() && levels.len() > 1 && levels.ends_with(&[0])
}

/// Whether a solution is refused that would have lowered a level.
fn would_lower(lines: &Lines) -> bool {
    let refused = run(lines).answer;
    if refused.number != 25 {
        return false;
    }
    let before = limited::set_solved(usize::MAX);
    let granted = answer_lines(Door::First, lines, refused.taken);
    limited::set_solved(before);
    granted.fresh == refused.fresh && granted.levels != refused.levels
}

/// A solution out of scope in a book with room for it, in a full one, and after
/// one that is too long.
fn at_once() -> Titled {
    let nodes = |more| {
        let strict = answer_lines(Door::Strict, &solved(&ranked(), more), MOST_STEPS);
        let nodes = strict.solutions.iter().map(|(_, nodes)| nodes.len());
        (strict.number == 39).then_some(nodes.sum::<usize>())
    };
    let room = (0..MOST).find(|more| nodes(*more) == Some(limited::SOLVED - 1));
    let room = room.expect("more nodes fill the book");
    let titles = ["39: room for a node", "39 before 25", "25 before 39"];
    let titled = (room..).zip(titles);
    titled
        .map(|(more, title)| (title.into(), made(solved(&ranked(), more))))
        .collect()
}

fn call(function: Lines, argument: Lines) -> Lines {
    [vec![line(24, 0, 0)], function, argument].concat()
}

fn variable(name: i64) -> Lines {
    vec![line(21, name, 0)]
}

/// 7 in a Case with no arm, which has any type.
fn any() -> Lines {
    vec![line(27, 0, 0), seven()]
}

/// A term with a variable n70 of unknown type.
fn with_n70(body: Lines) -> Lines {
    [vec![line(27, 0, 1)], any(), vec![line(42, 70, 0)], body].concat()
}

/// Splits of unknowns that are parts of older ones or lowered.
fn lowered() -> Vec<Term> {
    let boxed = || app(Ty::Con(31), INT);
    let function = || arrow(INT, INT);
    let term = |title, of_n45, lines| Term {
        title,
        context: vec![(45, of_n45)],
        lines,
        ..Term::default()
    };
    let taken = || call(variable(45), any());
    let given = || call(variable(TAKER), call(variable(45), vec![seven()]));
    vec![
        term("an unknown below an Arrow", arrow(function(), INT), taken()),
        term("an unknown below an App", arrow(boxed(), INT), taken()),
        term("an Arrow below an unknown", arrow(INT, function()), given()),
        term("an App below an unknown", arrow(INT, boxed()), given()),
        applied_late(),
    ]
}

/// n70's type is made a part of the inner Case's, and then applied, below a
/// pattern's quantifiers, so that nothing before has as many entries.
fn applied_late() -> Term {
    let boxed = || call(variable(INTO), variable(70));
    let applied = call(variable(70), vec![seven()]);
    let less = [vec![line(28, 5, 0)], applied, vec![seven()]].concat();
    let below = vec![line(27, 0, 1), line(26, VALUE, 0), line(43, 25, 0)];
    let chosen = [vec![line(29, 0, 0)], below, less, boxed(), boxed()].concat();
    let inner = with_n70(chosen);
    Term {
        title: "a lowered unknown applied",
        constructors: vec![(25, quantified(30, making_n30(&[])))],
        lines: [vec![line(27, 0, 1)], inner, vec![line(41, 0, 0), seven()]].concat(),
        ..Term::default()
    }
}

fn applied() -> Term {
    Term {
        title: "an unknown applied",
        lines: with_n70(call(variable(70), vec![seven()])),
        ..Term::default()
    }
}

/// A part of the function's type is given the newer n10.
fn linked() -> Term {
    Term {
        title: "a solution that would lower",
        lines: call(variable(LINK), vec![seven()]),
        ..Term::default()
    }
}

/// A function that takes ∀n11. ∀n12. n12: an older unknown meets the universals.
fn ranked() -> Term {
    let twice = forall(11, forall(12, Ty::Var(12)));
    Term {
        title: "a universal",
        context: vec![(47, arrow(twice, INT))],
        lines: call(variable(47), any()),
        ..Term::default()
    }
}

fn quantified(count: usize, ty: Ty) -> Ty {
    let names = 100..100 + count as u32;
    names.rev().fold(ty, |ty, name| forall(name, ty))
}

/// The sheet of a term as Int, with its own entries and those of what fills it.
fn whole(term: &Term, constructors: Entries, context: Entries, lines: Lines) -> Lines {
    let all = |to: fn(Ty) -> Ty| forall(10, arrow(Ty::Var(10), to(Ty::Var(10))));
    let value = vec![(VALUE as u32, making_n30(&[]))];
    let known = vec![
        (TAKER as u32, all(|_| INT)),
        (LINK as u32, all(|ty| ty)),
        (INTO as u32, all(|ty| app(Ty::Con(31), ty))),
    ];
    let constructors = [value, constructors, term.constructors.clone()].concat();
    let context = [known, context, term.context.clone()].concat();
    sheet(&constructors, &context, INT, lines)
}

/// The term plus what is judged before it.
fn after(fillings: Vec<Lines>, term: &Term) -> Lines {
    let sums = vec![line(28, 1, 0); fillings.len()];
    [sums, term.lines.clone(), fillings.concat()].concat()
}

/// Constructors of many quantifiers: a number for each.
fn numbers(term: &Term, more: usize) -> Lines {
    let constructors = vec![(20, quantified(80, INT)), (21, quantified(more, INT))];
    let mut fillings = vec![vec![line(26, 20, 0)]; 11];
    fillings.push(vec![line(26, 21, 0)]);
    whole(term, constructors, Vec::new(), after(fillings, term))
}

/// Below a Case's patterns of many quantifiers: an entry for each.
fn entries(term: &Term, more: usize) -> Lines {
    let n30 = || making_n30(&[]);
    let constructors = vec![(22, quantified(80, n30())), (24, quantified(more, n30()))];
    let mut lines = vec![line(27, 0, 6), line(26, VALUE, 0)];
    (0..5).for_each(|_| lines.extend([line(43, 22, 0), seven()]));
    lines.push(line(43, 24, 0));
    lines.extend(term.lines.clone());
    whole(term, constructors, Vec::new(), lines)
}

/// Variables of large types, whose nodes are given to 40 unknowns and to two. An
/// odd node comes of a link beside 7, which takes seven of them.
fn solved(term: &Term, more: usize) -> Lines {
    let (size, last) = match more % 2 {
        0 => (4 + more / 2, vec![seven()]),
        _ => (more.div_ceil(2), call(variable(LINK), vec![seven()])),
    };
    let context = vec![(48, sized(size)), (49, sized(100))];
    let two = vec![line(27, 0, 1), line(21, 48, 0), line(41, 0, 0)];
    let case = vec![line(27, 0, 38), seven()];
    let arms = [line(41, 0, 0), line(21, 49, 0)].repeat(38);
    let forty = call(variable(TAKER), [case, arms].concat());
    let fillings = vec![[two, last].concat(), forty];
    whole(term, Vec::new(), context, after(fillings, term))
}
