//! The plans that work towards a limit.

use crate::generate::grown;
use crate::oracle::{answer_sheet, under_limit, Door};
use crate::sheet::write;
use crate::with_stack;
use std::collections::{BTreeMap, BTreeSet};

/// By the number that a search went to: the numbers at one below and from there on.
fn met(seed: u64, count: usize) -> BTreeMap<(u32, Door), [BTreeSet<u32>; 2]> {
    let mut met: BTreeMap<_, [BTreeSet<u32>; 2]> = BTreeMap::new();
    for plan in grown::random(seed, count) {
        let sheet = write(&plan.made.lines);
        let answer = || answer_sheet(plan.door, &sheet, plan.made.ceiling);
        let number = under_limit(plan.limit, answer).number;
        let [below, there] = met.entry((plan.towards, plan.door)).or_default();
        match plan.beyond {
            -1 => below.insert(number),
            0 => there.insert(number),
            _ => continue,
        };
    }
    met
}

#[test]
fn grown_plans_come_to_each_limit() {
    let met = with_stack(|| met(11, 40));
    for number in 21..=25 {
        for door in [Door::First, Door::Strict] {
            let [below, there] = &met[&(number, door)];
            assert_eq!(*there, BTreeSet::from([number]), "{number} {door:?}");
            assert!(
                !below.contains(&number) && below.len() > 2,
                "{number} {below:?}"
            );
        }
        let [below, _] = &met[&(number, Door::Strict)];
        assert!(below.contains(&39), "{number}: {below:?}");
    }
}

#[test]
fn grown_plans_are_the_same_again() {
    let lines = || {
        let plans = grown::random(12, 3).map(|grown| (grown.made.ceiling, grown.made.lines));
        plans.collect::<Vec<_>>()
    };
    with_stack(move || assert!(lines() == lines()));
}
