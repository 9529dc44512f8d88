//! What a call takes beside the sheet: ceilings, limits, lengths of the buffers,
//! and refusals that meet.

use super::{lines, under, Sheet};
use crate::generate::limits::{ceiling, picked, Found};
use crate::oracle::{sizes, Door, LIMIT, MOST_LIMIT, MOST_STEPS};
use crate::record::raw::{Raw, MOST_WORDS};
use crate::sheet::{write, LINE};

const DOORS: [Door; 2] = [Door::First, Door::Strict];

pub fn calls() -> Vec<Raw> {
    let by_door =
        DOORS.map(|door| [ceilings(door), limits(door), buffers(door), meeting(door)].concat());
    [by_door.concat(), at_most_steps(), at_picked_limits()].concat()
}

fn seven_as_int() -> Sheet {
    write(&lines(&[3, 0, 0, 12, 1, 0, 4, 0, 0, 22, 7, 0]))
}

/// 7 as Int → Int, which writes out three nodes and is refused with four.
fn seven_as_arrow() -> Sheet {
    write(&lines(&[
        3, 0, 0, 13, 0, 0, 12, 1, 0, 12, 1, 0, 4, 0, 0, 22, 7, 0,
    ]))
}

fn ceilings(door: Door) -> Vec<Raw> {
    let ceilings = [
        0,
        1,
        2,
        3,
        4,
        5,
        6,
        MOST_STEPS - 1,
        MOST_STEPS,
        MOST_STEPS + 1,
        MOST_STEPS + 2,
        65_535,
        65_536,
        75_536,
        1 << 31,
        u32::MAX,
    ];
    let calls = ceilings.map(|ceiling| Raw {
        ceiling,
        ..Raw::usual(door, seven_as_int())
    });
    calls.into()
}

/// A run of 10,000 entries and one of more, by ceilings around that.
fn at_most_steps() -> Vec<Raw> {
    let ceilings = [MOST_STEPS - 1, MOST_STEPS, MOST_STEPS + 1];
    let calls = ceiling().into_iter().flat_map(|Found { made, .. }| {
        let sheet = write(&made.lines);
        ceilings.map(|ceiling| Raw {
            ceiling,
            ..Raw::usual(Door::First, sheet.clone())
        })
    });
    calls.collect()
}

/// With as many words as there are: a report for 1,025 nodes is the longest.
fn limits(door: Door) -> Vec<Raw> {
    let high = [MOST_LIMIT - 1, MOST_LIMIT, MOST_LIMIT + 1, 65_535, 65_536];
    let cut = [1 << 30, (1 << 30) + 1, (1 << 30) + LIMIT, 1 << 31, u32::MAX];
    let low = [0, 1, 2, 3, 4, 5, LIMIT - 1, LIMIT, LIMIT + 1, LIMIT + 2];
    let limits = [&low[..], &high, &cut].concat();
    let sheets = [seven_as_int(), seven_as_arrow()];
    let calls = limits.into_iter().flat_map(|limit| {
        sheets.clone().map(|sheet| Raw {
            limit,
            lengths: MOST_WORDS,
            ..Raw::usual(door, sheet)
        })
    });
    calls.collect()
}

/// Limits that are met and passed by one, where the report is not too long.
fn at_picked_limits() -> Vec<Raw> {
    let found = picked()
        .into_iter()
        .filter(|found| found.limit <= LIMIT + 1);
    let calls = found.flat_map(|Found { made, limit, .. }| {
        let sheet = write(&made.lines);
        DOORS.map(|door| under(limit, Raw::usual(door, sheet.clone())))
    });
    calls.collect()
}

/// Each buffer empty, of one word, short by a word, exact, longer by a word and as
/// long as there are words: each alone, and empty, short, exact and long together.
fn buffers(door: Door) -> Vec<Raw> {
    let mut calls = Vec::new();
    for limit in [1, LIMIT, LIMIT + 1] {
        let exact = sizes(limit);
        let call = |lengths: [usize; 3]| Raw {
            lengths: std::array::from_fn(|at| lengths[at].min(MOST_WORDS[at])),
            ..under(limit, Raw::usual(door, seven_as_arrow()))
        };
        for at in 0..3 {
            for length in [
                0,
                1,
                exact[at] / 2,
                exact[at] - 1,
                exact[at] + 1,
                MOST_WORDS[at],
            ] {
                let mut lengths = exact;
                lengths[at] = length;
                calls.push(call(lengths));
            }
        }
        for choice in 0..64 {
            let length =
                |at: usize| [0, exact[at] - 1, exact[at], MOST_WORDS[at]][choice >> (2 * at) & 3];
            calls.push(call([length(0), length(1), length(2)]));
        }
    }
    calls
}

/// Every set of 1, 32, 2, 3, 4 and 5, with each buffer short where 2 is in it:
/// which goes first.
fn meeting(door: Door) -> Vec<Raw> {
    let mut calls = Vec::new();
    for set in 0..64_usize {
        let is_in = |at: usize| set >> at & 1 == 1;
        let limit = match is_in(1) {
            true => [0, MOST_LIMIT + 1, u32::MAX][set % 3],
            false => LIMIT,
        };
        let short = if is_in(2) { 0..3 } else { 3..4 };
        calls.extend(short.map(|short| Raw {
            door,
            ceiling: MOST_STEPS + u32::from(is_in(0)),
            limit,
            lengths: std::array::from_fn(|at| sizes(LIMIT)[at] - usize::from(at == short)),
            sheet: bad_sheet(is_in(3), is_in(4), is_in(5)),
        }));
    }
    calls
}

/// A byte too long, with a line misspelt, with one out of place.
fn bad_sheet(length: bool, spelling: bool, grammar: bool) -> Sheet {
    let mut sheet = seven_as_int();
    if grammar {
        sheet[..3].copy_from_slice(b"  5");
    }
    if spelling {
        sheet[2 * LINE - 1] = b' ';
    }
    if length {
        sheet.push(b'\n');
    }
    sheet
}
