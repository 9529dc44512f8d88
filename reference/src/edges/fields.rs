//! The bounds of every field of every kind, and the entries' order.

use super::hosts::{spelt, Host};
use super::{lines, Sheet, KINDS, OTHER_KINDS};
use crate::sheet::write;

/// Beyond 32 bits, beyond 16 and as they would be cut.
const NAMES: [i64; 13] = [
    0,
    1,
    2,
    9_998,
    9_999,
    10_000,
    10_001,
    65_536,
    65_537,
    4_294_967_295,
    4_294_967_296,
    4_294_967_297,
    i64::MAX,
];

const OPERATORS: [i64; 16] = [
    0,
    1,
    2,
    3,
    4,
    5,
    6,
    7,
    8,
    9,
    255,
    257,
    65_537,
    4_294_967_297,
    9_223_372_036_854_775_806,
    i64::MAX,
];

/// Out of signed 64 bits.
const TOO_LARGE: [&str; 5] = [
    "9223372036854775808",
    "18446744073709551615",
    "18446744073709551616",
    "18446744073709551617",
    "99999999999999999999",
];

/// A count and the parts that are there: as many, or as a count cut to 8 or 16
/// bits would have it.
const COUNTS: [(i64, usize); 15] = [
    (0, 0),
    (1, 1),
    (2, 2),
    (9, 9),
    (10, 10),
    (98, 98),
    (99, 99),
    (100, 100),
    (101, 101),
    (1, 0),
    (256, 0),
    (257, 1),
    (999, 0),
    (65_537, 1),
    (99_999, 0),
];

pub fn sheets() -> Vec<Sheet> {
    let kinds = KINDS.iter().chain(&OTHER_KINDS);
    let fields = kinds.flat_map(|kind| [values(*kind), counts(*kind)].concat());
    fields.chain(literals()).chain(entries()).collect()
}

fn is_named(kind: i64) -> bool {
    [1, 2, 11, 12, 14, 21, 23, 25, 26, 30, 42, 43].contains(&kind)
}

/// A value that is good on that kind.
pub fn good_value(kind: i64) -> i64 {
    match kind {
        28 => 1,
        22 => 7,
        _ if is_named(kind) => 20,
        _ => 0,
    }
}

fn values(kind: i64) -> Vec<Sheet> {
    let listed: &[i64] = if kind == 28 { &OPERATORS } else { &NAMES };
    let large = TOO_LARGE.map(str::to_string);
    let values = listed.iter().map(i64::to_string).chain(large);
    let host = Host::new(kind, 0);
    values
        .map(|value| host.sheet(&spelt(&kind.to_string(), &value, "0")))
        .collect()
}

fn counts(kind: i64) -> Vec<Sheet> {
    let (kind_text, value) = (kind.to_string(), good_value(kind).to_string());
    let sheet = |(count, parts): (i64, usize)| {
        Host::new(kind, parts).sheet(&spelt(&kind_text, &value, &count.to_string()))
    };
    match [16, 26, 27, 30, 43].contains(&kind) {
        true => COUNTS.map(sheet).into(),
        false => [1, 99, 100, 256, 65_536, 99_999]
            .map(|count| sheet((count, 0)))
            .into(),
    }
}

/// A literal of every magnitude with either sign, the ends of 64 bits and beyond.
fn literals() -> Vec<Sheet> {
    let tens = (0..=19).map(|digits| 10_i128.pow(digits));
    let twos = [1, 7, 8, 15, 16, 24, 31, 32, 52, 53, 62, 63, 64].map(|bits| 1_i128 << bits);
    let around = tens.chain(twos).flat_map(|it| [it - 1, it, it + 1]);
    let mut values: Vec<i128> = around.flat_map(|it| [it, -it]).collect();
    values.extend([10_i128.pow(20) - 1, 1 - 10_i128.pow(19)]);
    values.sort();
    values.dedup();
    let host = Host::new(22, 0);
    let texts = values.iter().map(i128::to_string);
    texts
        .filter(|text| text.len() <= 20)
        .map(|text| host.sheet(&spelt("22", &text, "0")))
        .collect()
}

/// Entries of one kind or both, each of type Int, before 7 as Int.
#[rustfmt::skip]
const ENTRIES: [&[(i64, i64)]; 26] = [
    &[(1, 1), (1, 2)], &[(1, 2), (1, 1)], &[(1, 20), (1, 20)], &[(1, 20), (1, 21)], &[(1, 21), (1, 20)],
    &[(2, 1), (2, 2)], &[(2, 2), (2, 1)], &[(2, 20), (2, 20)], &[(2, 20), (2, 21)], &[(2, 21), (2, 20)],
    &[(1, 9_999), (1, 10_000)], &[(1, 9_998), (1, 9_999)], &[(1, 9_999), (1, 1)], &[(1, 9_999), (2, 1)],
    &[(2, 9_999), (2, 10_000)], &[(2, 9_998), (2, 9_999)], &[(2, 9_999), (2, 1)], &[(2, 1), (1, 9_999)],
    &[(1, 20), (2, 20)], &[(1, 21), (2, 20)], &[(2, 20), (1, 20)], &[(2, 20), (1, 21)],
    &[(1, 20), (2, 20), (1, 21)], &[(1, 20), (1, 30), (1, 25)], &[(2, 20), (2, 30), (2, 25)],
    &[(1, 20), (1, 0)],
];

fn entries() -> Vec<Sheet> {
    let rest = [3, 0, 0, 12, 1, 0, 4, 0, 0, 22, 7, 0];
    let with = |entries: &[(i64, i64)], count: i64| {
        let entries = entries.iter();
        let entries = entries.flat_map(|(kind, name)| [*kind, *name, count, 12, 1, 0]);
        write(&lines(&entries.chain(rest).collect::<Vec<_>>()))
    };
    let plain = ENTRIES.iter().map(|entries| with(entries, 0));
    let counted = ENTRIES.iter().map(|entries| with(&entries[..1], 1));
    plain.chain(counted).chain(late_entries()).collect()
}

/// Entries after the expected type or in it, after the term, and headings twice.
fn late_entries() -> Vec<Sheet> {
    let [expected, ty, term, seven] = [[3, 0, 0], [12, 1, 0], [4, 0, 0], [22, 7, 0]];
    let mut sheets = Vec::new();
    for kind in [1, 2] {
        let entry = [kind, 20, 0];
        sheets.extend([
            vec![expected, entry, ty, ty, term, seven],
            vec![expected, ty, entry, ty, term, seven],
            vec![expected, ty, term, entry, ty, seven],
            vec![expected, ty, term, seven, entry, ty],
            vec![entry, expected, ty, term, seven],
            vec![entry, entry, ty, expected, ty, term, seven],
        ]);
    }
    sheets.extend([
        vec![expected, expected, ty, term, seven],
        vec![expected, ty, expected, ty, term, seven],
        vec![expected, ty, term, term, seven],
        vec![expected, ty, term, seven, term, seven],
        vec![term, seven, expected, ty],
        vec![term, seven],
        vec![expected, ty],
        vec![ty, term, seven],
        vec![expected, term, seven],
        vec![expected, ty, seven],
    ]);
    let written = sheets
        .into_iter()
        .map(|sheet| write(&lines(&sheet.concat())));
    written.collect()
}
