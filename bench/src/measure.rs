//! Times of calls, taken by turns.

use crate::clock::time;
use crate::floor::floor;
use reference::checks::Call;
use reference::oracle::{inference, MOST_STEPS};
use reference::plan::Plan;
use reference::proved::{lend, Buffers, Check};
use std::hint::black_box;
use std::time::Duration;

/// How long each is measured, and in how many turns.
#[derive(Clone, Copy)]
pub struct Turns {
    pub total: Duration,
    pub turns: u32,
}

pub const FULL: Turns = Turns {
    total: Duration::from_millis(200),
    turns: 5,
};
pub const QUICK: Turns = Turns {
    total: Duration::from_millis(20),
    turns: 2,
};

#[derive(Clone, Copy)]
pub struct Times {
    pub minimum: Duration,
    pub median: Duration,
}

impl Times {
    fn of(mut calls: Vec<Duration>) -> Self {
        calls.sort_unstable();
        Times {
            minimum: calls[0],
            median: calls[calls.len() / 2],
        }
    }
}

pub struct Measured {
    pub rust: Times,
    pub ours: Times,
    pub floor: Times,
    /// Of the plans that it checks.
    pub anchor: Option<Times>,
}

/// Buffers with words that no run leaves, made so again before every timed call.
struct Dirty {
    buffers: Buffers,
    calls: u32,
}

impl Dirty {
    fn new(lengths: [usize; 3]) -> Self {
        let buffers = lengths.map(|length| vec![0; length]);
        Dirty { buffers, calls: 0 }
    }

    fn time<T>(&mut self, call: impl FnOnce(&mut Buffers) -> T) -> Duration {
        self.calls = self.calls.wrapping_add(1);
        let word = self.calls | 0x8000_0000;
        self.buffers.iter_mut().for_each(|buffer| buffer.fill(word));
        let buffers = black_box(&mut self.buffers);
        time(|| call(buffers))
    }
}

/// One whole call of a checker, with buffers that are kept for it.
fn calling<'a>(check: Check, call: &'a Call) -> impl FnMut() -> Duration + 'a {
    let mut dirty = Dirty::new(call.lengths);
    move || {
        dirty.time(|buffers| {
            let lent = lend(buffers, call.lengths);
            check(
                call.door,
                black_box(call.sheet),
                MOST_STEPS,
                call.limit,
                lent,
            )
        })
    }
}

/// The Rust's `check_type`, our whole call, the floor, and the anchor's call.
pub fn measure(
    turns: Turns,
    check: Check,
    anchor: Option<Check>,
    plan: &Plan,
    call: &Call,
) -> Measured {
    let mut rust = || {
        let mut rust = inference(plan);
        time(|| rust.check_type(black_box(&plan.term), &plan.expected))
    };
    let mut dirty = Dirty::new(call.lengths);
    let mut floor = || dirty.time(|buffers| floor(black_box(call.sheet), buffers));
    let mut ours = calling(check, call);
    let Some(anchor) = anchor else {
        let [rust, ours, floor] = by_turns(turns, [&mut rust, &mut ours, &mut floor]);
        return Measured {
            rust,
            ours,
            floor,
            anchor: None,
        };
    };
    let mut anchor = calling(anchor, call);
    let timed: [&mut dyn FnMut() -> Duration; 4] = [&mut rust, &mut ours, &mut floor, &mut anchor];
    let [rust, ours, floor, anchor] = by_turns(turns, timed);
    Measured {
        rust,
        ours,
        floor,
        anchor: Some(anchor),
    }
}

/// So many calls one after the other.
pub fn in_a_row(count: usize, check: Check, call: &Call) -> Duration {
    let mut one = calling(check, call);
    (0..count).map(|_| one()).sum()
}

/// Every one in each turn, until it has had its part of the time: once at least,
/// and no more where one call takes as long as all turns.
pub fn by_turns<const N: usize>(
    turns: Turns,
    mut timed: [&mut dyn FnMut() -> Duration; N],
) -> [Times; N] {
    let mut calls = [const { Vec::new() }; N];
    let mut spent = [Duration::ZERO; N];
    for turn in 1..=turns.turns {
        let due = turns.total * turn / turns.turns;
        for ((one, calls), spent) in timed.iter_mut().zip(&mut calls).zip(&mut spent) {
            while *spent < due {
                let time = one();
                *spent += time;
                calls.push(time);
            }
        }
    }
    calls.map(Times::of)
}
