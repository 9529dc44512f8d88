//! Each limit passed in each operation that can pass it, by as little as can be,
//! and the runs that just meet one: small plans filled up until an operation is
//! refused, one for each judgment and number of operations that it had done.

mod deep;

use super::lines;
use crate::generate::grown::{
    copies, entries, nodes, numbers, random, solutions, Grow, Grown, Parts,
};
use crate::generate::Made;
use crate::oracle::{run_limited, sizes, under_limit, Door, Run, LIMIT, MOST_STEPS};
use crate::record::raw::Raw;
use crate::sheet::{line, read_plan, write, Line, MOST_LINES};
use std::collections::BTreeMap;

/// Number, whether by entries, the judgment and the operations that it had done.
type Label = (u32, bool, limited::Rule, usize);

/// What a label's plan brought the limited number to, and the call.
type Labelled = BTreeMap<Label, (usize, Raw)>;

/// One plan for each label, and those that meet a limit.
pub fn calls() -> Vec<Raw> {
    let mut labelled = Labelled::new();
    let mut met = Vec::new();
    let plans: Vec<Parts> = PLANS.iter().map(|plan| Parts::of(&lines(plan))).collect();
    let deep: Vec<Parts> = deep::plans().iter().map(|lines| Parts::of(lines)).collect();
    for way in WAYS {
        for plan in &plans {
            met.extend(collect(&mut labelled, plan, way));
        }
    }
    for way in BOARD_WAYS {
        for plan in &deep {
            met.extend(collect(&mut labelled, plan, way));
        }
    }
    for grown in random(SEED, SEARCHES).filter(|grown| grown.limit <= LIMIT + 1) {
        note_grown(&mut labelled, &grown);
    }
    let passed = labelled.into_values().map(|(_, raw)| raw);
    met.into_iter().chain(passed).collect()
}

const SEED: u64 = 1;
const SEARCHES: usize = 12;

/// A way to grow, the limit that it goes to, and how far past the first refusal a
/// plan is grown.
type Way = (Grow, usize, usize);

const WAYS: [Way; 6] = [
    (entries, limited::ENTRIES, 12),
    (quantified, limited::ENTRIES, 12),
    (nodes, limited::NODES, 12),
    (numbers, limited::NUMBERS, 26),
    (solutions, limited::SOLVED, 26),
    (copies, limited::WRITTEN, 12),
];

/// For plans that bring the board high.
const BOARD_WAYS: [Way; 2] = [(entries, limited::ENTRIES, 12), (nodes, limited::NODES, 12)];

/// The most operations of one judgment that are told apart.
const MOST_DONE: usize = 9;

/// The plan's own type below so many quantifiers, each an entry on the board.
fn quantified(plan: &Parts, size: usize) -> Vec<Line> {
    let quantifiers = (1..=size as i64).map(|name| line(14, 5000 + name, 0));
    Parts {
        expected: quantifiers.chain(plan.expected.clone()).collect(),
        ..plan.clone()
    }
    .lines()
}

fn label(run: &Run) -> Option<(Label, usize)> {
    let passed = run.passed?;
    let (mut rule, done) = run.last;
    if rule[0] == "Chk" && rule[1..] != ["Lambda", "Arrow"] {
        rule[1] = "";
    }
    let by_entries = passed.number == 22 && passed.reached <= limited::ENTRIES + 1;
    let label = (passed.number, by_entries, rule, done.min(MOST_DONE));
    Some((label, passed.reached))
}

fn run(lines: &[Line]) -> Run {
    let plan = read_plan(lines).expect("a plan");
    run_limited(Door::First, &plan, MOST_STEPS)
}

/// Notes what refuses a plan from the first refusal on, and gives the plan before
/// it if its judgment is new.
fn collect(labelled: &mut Labelled, plan: &Parts, way: Way) -> Option<Raw> {
    let (grow, limit, beyond) = way;
    let first = first_passed(plan, grow, limit)?;
    let before = labelled.len();
    for size in first..first + beyond {
        let lines = grow(plan, size);
        if lines.len() <= MOST_LINES {
            let run = run(&lines);
            note(labelled, &run, || Raw::usual(Door::First, write(&lines)));
        }
    }
    let is_new = labelled.len() > before && first > 0;
    is_new.then(|| Raw::usual(Door::First, write(&grow(plan, first - 1))))
}

/// The least size at which a limit is passed.
fn first_passed(plan: &Parts, grow: Grow, limit: usize) -> Option<usize> {
    let passes = |size: usize| {
        let lines = grow(plan, size);
        lines.len() > MOST_LINES || run(&lines).passed.is_some()
    };
    let (mut low, mut high) = (0, limit + 20);
    if passes(low) || !passes(high) {
        return None;
    }
    while high - low > 1 {
        let middle = low + (high - low) / 2;
        match passes(middle) {
            true => high = middle,
            false => low = middle,
        }
    }
    Some(high)
}

/// Kept where the label is new, or passed by less than before.
fn note(labelled: &mut Labelled, run: &Run, raw: impl Fn() -> Raw) {
    let Some((label, reached)) = label(run) else {
        return;
    };
    let known = labelled.get(&label);
    if known.is_none_or(|(least, _)| reached < *least) {
        labelled.insert(label, (reached, raw()));
    }
}

fn note_grown(labelled: &mut Labelled, grown: &Grown) {
    let Made { ceiling, lines } = &grown.made;
    let plan = read_plan(lines).expect("a plan");
    let run = under_limit(grown.limit, || run_limited(grown.door, &plan, *ceiling));
    note(labelled, &run, || Raw {
        door: grown.door,
        ceiling: *ceiling,
        limit: grown.limit,
        lengths: sizes(grown.limit),
        sheet: write(lines),
    });
}

/// Plans that come to each rule: checking, inferring, applying, comparing.
#[rustfmt::skip]
const PLANS: [&[i64]; 32] = [
    &[3,0,0, 12,1,0, 4,0,0, 22,7,0],
    &[3,0,0, 13,0,0, 12,1,0, 12,1,0, 4,0,0, 23,10,0, 12,1,0, 21,10,0],
    &[3,0,0, 12,1,0, 4,0,0, 24,0,0, 23,10,0, 12,1,0, 21,10,0, 22,7,0],
    &[2,40,0, 13,0,0, 12,1,0, 12,1,0, 3,0,0, 12,1,0, 4,0,0, 24,0,0, 21,40,0, 22,7,0],
    &[2,40,0, 14,10,0, 13,0,0, 11,10,0, 11,10,0, 3,0,0, 12,1,0, 4,0,0, 24,0,0, 21,40,0, 22,7,0],
    &[3,0,0, 12,1,0, 4,0,0, 27,0,1, 27,0,0, 22,7,0, 42,70,0, 24,0,0, 21,70,0, 22,7,0],
    &[3,0,0, 14,10,0, 12,1,0, 4,0,0, 25,10,0, 22,7,0],
    &[3,0,0, 12,1,0, 4,0,0, 24,0,0, 25,10,0, 23,50,0, 11,10,0, 21,50,0, 22,7,0],
    &[1,20,0, 14,10,0, 14,11,0, 13,0,0, 11,10,0, 12,30,0, 3,0,0, 13,0,0, 12,1,0, 12,30,0, 4,0,0, 26,20,0],
    &[3,0,0, 12,1,0, 4,0,0, 28,1,0, 22,7,0, 22,7,0],
    &[3,0,0, 12,1,0, 4,0,0, 29,0,0, 28,5,0, 22,7,0, 22,7,0, 22,7,0, 22,7,0],
    &[3,0,0, 12,3,0, 4,0,0, 30,4,1, 22,7,0],
    &[1,20,0, 14,10,0, 13,0,0, 11,10,0, 13,0,0, 11,10,0, 12,31,0, 3,0,0, 12,1,0, 4,0,0,
      27,0,1, 27,0,0, 22,7,0, 43,20,2, 42,50,0, 43,20,2, 42,51,0, 42,52,0, 22,7,0],
    &[1,20,0, 12,31,0, 3,0,0, 12,1,0, 4,0,0, 27,0,2, 26,20,0, 42,50,0, 22,7,0, 43,20,1, 41,0,0, 22,7,0],
    &[2,40,0, 13,0,0, 12,1,0, 14,10,0, 11,10,0, 3,0,0, 13,0,0, 12,1,0, 12,1,0, 4,0,0, 21,40,0],
    &[2,40,0, 15,0,0, 12,31,0, 14,10,0, 11,10,0, 3,0,0, 15,0,0, 12,31,0, 12,1,0, 4,0,0, 21,40,0],
    &[2,40,0, 13,0,0, 12,1,0, 14,10,0, 11,10,0, 3,0,0, 13,0,0, 12,1,0, 14,11,0, 11,11,0, 4,0,0, 21,40,0],
    &[3,0,0, 13,0,0, 12,1,0, 12,1,0, 4,0,0, 27,0,0, 22,7,0],
    &[3,0,0, 15,0,0, 12,31,0, 12,1,0, 4,0,0, 27,0,0, 22,7,0],
    &[3,0,0, 16,0,2, 12,31,0, 12,1,0, 4,0,0, 27,0,0, 22,7,0],
    &[3,0,0, 14,10,0, 11,10,0, 4,0,0, 27,0,0, 22,7,0],
    &[3,0,0, 13,0,0, 12,1,0, 14,11,0, 11,11,0, 4,0,0, 27,0,0, 22,7,0],
    &[2,40,0, 13,0,0, 12,1,0, 12,1,0, 3,0,0, 13,0,0, 12,1,0, 12,1,0, 4,0,0, 21,40,0],
    &[2,40,0, 15,0,0, 12,31,0, 12,1,0, 3,0,0, 15,0,0, 12,31,0, 12,1,0, 4,0,0, 21,40,0],
    &[2,40,0, 14,10,0, 13,0,0, 11,10,0, 11,10,0, 3,0,0, 13,0,0, 12,1,0, 12,1,0, 4,0,0, 21,40,0],
    &[2,40,0, 14,10,0, 15,0,0, 11,10,0, 11,10,0, 3,0,0, 12,1,0, 4,0,0, 27,0,1, 21,40,0, 42,50,0, 22,7,0],
    &[2,40,0, 11,11,0, 3,0,0, 11,11,0, 4,0,0, 21,40,0],
    &[2,40,0, 16,0,2, 12,1,0, 12,2,0, 3,0,0, 16,0,2, 12,1,0, 12,2,0, 4,0,0, 21,40,0],
    &[2,40,0, 13,0,0, 14,10,0, 11,10,0, 12,1,0, 3,0,0, 12,1,0, 4,0,0, 24,0,0, 21,40,0, 27,0,0, 22,7,0],
    &[2,40,0, 13,0,0, 13,0,0, 12,1,0, 12,1,0, 12,1,0, 3,0,0, 12,1,0, 4,0,0, 24,0,0, 21,40,0, 23,50,0, 12,1,0, 21,50,0],
    &[3,0,0, 12,1,0, 4,0,0, 27,0,1, 27,0,0, 22,7,0, 42,50,0, 27,0,1, 27,0,0, 22,7,0, 42,51,0,
      29,0,0, 28,5,0, 22,7,0, 22,7,0, 21,50,0, 21,51,0],
    &[3,0,0, 12,1,0, 4,0,0, 27,0,3, 22,7,0, 42,50,0, 21,50,0, 42,51,0, 21,51,0, 41,0,0, 22,7,0],
];
