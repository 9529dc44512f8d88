//! Calls and sheets at the edges of what document 01 allows, for raw records:
//! every field's bounds, spelling, lengths, places, what else a call takes, the
//! limits, and plans that tell one rule from another.

mod calls;
mod fields;
mod hosts;
mod lengths;
mod limits;
mod places;
mod reports;
mod spelling;
mod telling;

use crate::oracle::{sizes, Door};
use crate::record::raw::Raw;
use crate::sheet::{line, Line};

pub use telling::differences;

/// A title and its calls.
pub type Family = (&'static str, Vec<Raw>);

pub fn families() -> Vec<Family> {
    vec![
        ("bounds of fields", some_strict(fields::sheets())),
        ("spelling", some_strict(spelling::sheets())),
        ("lengths", all_first(lengths::sheets())),
        ("places of kinds", all_first(places::sheets())),
        (
            "ceilings, limits, buffers and refusals together",
            calls::calls(),
        ),
        ("reports", reports::calls()),
        ("plans that tell", both(telling::sheets())),
        ("limits by operation", limits::calls()),
    ]
}

type Sheet = Vec<u8>;

fn all_first(sheets: Vec<Sheet>) -> Vec<Raw> {
    let call = |sheet| Raw::usual(Door::First, sheet);
    sheets.into_iter().map(call).collect()
}

/// Each to the first call, every third to the strict one too.
fn some_strict(sheets: Vec<Sheet>) -> Vec<Raw> {
    let mut calls = Vec::new();
    for (at, sheet) in sheets.into_iter().enumerate() {
        calls.push(Raw::usual(Door::First, sheet.clone()));
        if at % 3 == 0 {
            calls.push(Raw::usual(Door::Strict, sheet));
        }
    }
    calls
}

fn both(sheets: Vec<Sheet>) -> Vec<Raw> {
    let doors = |sheet: Sheet| [Door::First, Door::Strict].map(|it| Raw::usual(it, sheet.clone()));
    sheets.into_iter().flat_map(doors).collect()
}

/// Under another limit, with buffers that are just long enough for it.
fn under(limit: u32, raw: Raw) -> Raw {
    Raw {
        limit,
        lengths: sizes(limit),
        ..raw
    }
}

/// Lines from kind, value, count by threes.
fn lines(numbers: &[i64]) -> Vec<Line> {
    numbers.chunks(3).map(|n| line(n[0], n[1], n[2])).collect()
}

/// The kinds that document 01 lists.
const KINDS: [i64; 23] = [
    1, 2, 3, 4, 11, 12, 13, 14, 15, 16, 21, 22, 23, 24, 25, 26, 27, 28, 29, 30, 41, 42, 43,
];

/// Some that it does not, the ends of its ranges and of bytes among them.
const OTHER_KINDS: [i64; 17] = [
    0, 5, 9, 10, 17, 18, 19, 20, 31, 32, 40, 44, 99, 256, 268, 278, 999,
];
