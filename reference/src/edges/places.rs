//! Each kind at each place of a small plan: alone, with its parts, and put in
//! between; a line lacking at the end and a line too many.

use super::fields::good_value;
use super::{lines, Sheet, KINDS, OTHER_KINDS};
use crate::sheet::{line, write, Line};

pub fn sheets() -> Vec<Sheet> {
    let plan = plan();
    let kinds = || KINDS.iter().chain(&OTHER_KINDS);
    let mut sheets: Vec<Sheet> = (0..plan.len()).map(|end| write(&plan[..end])).collect();
    sheets.remove(0);
    for at in 0..plan.len() {
        for kind in kinds() {
            let end = end_of(&plan, at);
            sheets.push(spliced(&plan, at..at + 1, &[good(*kind)]));
            sheets.push(spliced(&plan, at..end, &with_parts(*kind)));
        }
    }
    for at in 0..=plan.len() {
        let inserted = kinds().map(|kind| spliced(&plan, at..at, &[good(*kind)]));
        sheets.extend(inserted);
    }
    sheets
}

fn spliced(plan: &[Line], replaced: std::ops::Range<usize>, by: &[Line]) -> Sheet {
    let mut plan = plan.to_vec();
    plan.splice(replaced, by.iter().copied());
    write(&plan)
}

/// A plan with a line in every kind of place.
#[rustfmt::skip]
fn plan() -> Vec<Line> {
    lines(&[
        1, 20, 0, 13, 0, 0, 12, 1, 0, 12, 30, 0,
        2, 40, 0, 12, 1, 0,
        3, 0, 0, 12, 1, 0,
        4, 0, 0,
        27, 0, 1, 26, 20, 1, 22, 7, 0,
        43, 20, 1, 42, 50, 0,
        28, 1, 0, 21, 50, 0, 22, 7, 0,
    ])
}

fn good(kind: i64) -> Line {
    line(kind, good_value(kind), 0)
}

/// A line of that kind and what must follow it, with one part where it has a
/// count.
fn with_parts(kind: i64) -> Vec<Line> {
    let ty = line(12, 1, 0);
    let seven = line(22, 7, 0);
    let any = line(41, 0, 0);
    let parts: &[Line] = match kind {
        1 | 2 | 14 | 16 => &[ty],
        13 | 15 => &[ty, ty],
        23 => &[ty, seven],
        24 | 28 => &[seven, seven],
        25 | 26 | 30 => &[seven],
        27 => &[seven, any, seven],
        29 => &[seven, seven, seven],
        43 => &[any],
        _ => &[],
    };
    let count = i64::from([16, 26, 27, 30, 43].contains(&kind));
    [&[line(kind, good_value(kind), count)], parts].concat()
}

/// Where the type, term or pattern that begins at a line ends; a heading is alone.
fn end_of(plan: &[Line], at: usize) -> usize {
    let Line { kind, count, .. } = plan[at];
    let parts = match kind {
        13 | 24 | 28 => 2,
        27 => 1 + 2 * count,
        26 | 43 => count,
        _ => 0,
    };
    (0..parts).fold(at + 1, |at, _| end_of(plan, at))
}
