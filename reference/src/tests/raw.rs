//! Raw records: their encoding, and what the list has.

use super::{lines, FIRST};
use crate::edges;
use crate::oracle::{answer_lines, Door, MOST_STEPS};
use crate::record::raw::{decode, encode, Raw, MOST_WORDS};
use crate::sheet::{LINE, MOST_LINES};
use crate::with_stack;
use std::collections::BTreeSet;

fn first_plan(door: Door) -> Raw {
    Raw::usual(door, FIRST.as_bytes().to_vec())
}

fn encoded(raw: &Raw) -> String {
    encode(raw, &raw.answer())
}

#[test]
fn raw_record_is_spelt_as_described() {
    let expected = "10000 1024 12288 11192 4096 4 3 0 0 12 1 0 4 0 0 22 7 0 116 0 \
        0 0 5 1 0 0 1 0 1 0 1 12 1 0";
    for (door, call) in [(Door::First, 3), (Door::Strict, 4)] {
        assert_eq!(encoded(&first_plan(door)), format!("{call} {expected}"));
    }
}

/// A minus sign and a tab on a line, a byte more than a line, and no byte at all.
#[test]
fn bytes_that_spell_no_line_are_edits() {
    let call = |sheet: &[u8]| Raw::usual(Door::First, sheet.to_vec());
    let head = "3 10000 1024 12288 11192 4096";
    let misspelt = call(b" 11                  -1   \t0\n");
    let edits = "29 5 1 49 2 49 21 45 22 49 26 9";
    assert_eq!(
        encoded(&misspelt),
        format!("{head} 1 0 0 0 {edits} 4 1 0 0 0 0 0 0 0")
    );
    let longer = call(&[&FIRST.as_bytes()[..LINE], b"7\0"].concat());
    assert_eq!(
        encoded(&longer),
        format!("{head} 1 3 0 0 31 1 29 55 3 0 0 0 0 0 0 0 0")
    );
    assert_eq!(
        encoded(&call(b"")),
        format!("{head} 0 0 0 3 0 0 0 0 0 0 0 0")
    );
}

#[test]
fn what_is_no_raw_record_is_not_read() {
    let good = encoded(&first_plan(Door::First));
    assert!(decode(&good).is_some());
    let cut = good.rsplit_once(' ').expect("several numbers").0;
    let wrong = [
        cut.to_string(),
        format!("{good} 0"),
        good.replacen('3', "1", 1),
        good.replace(" 7", " x"),
    ];
    for text in wrong {
        assert_eq!(decode(&text), None, "{text}");
    }
}

/// Read again as they were, within what `replay` takes; gives number and details.
fn read_again(raw: Raw) -> (u32, (u32, u32)) {
    let answer = raw.answer();
    let told = (answer.number, answer.details);
    let read = decode(&encode(&raw, &answer));
    assert!(raw.sheet.len() <= (MOST_LINES + 2) * LINE, "{raw:?}");
    let mut lent = raw.lengths.iter().zip(MOST_WORDS);
    assert!(lent.all(|(lent, most)| *lent <= most), "{raw:?}");
    assert!(read == Some((raw, answer)), "{told:?}");
    told
}

/// Every number that document 01 lists but 16, which no plan comes to, and 32 and
/// 39; among the reports one that is as long as the limit lets it be.
#[test]
fn every_raw_record_is_read_and_every_number_among_them() {
    let told = with_stack(|| {
        let calls = edges::families().into_iter().flat_map(|(_, calls)| calls);
        calls.map(read_again).collect::<BTreeSet<_>>()
    });
    let numbers: BTreeSet<u32> = told.iter().map(|(number, _)| *number).collect();
    let all = (0..=5).chain(11..=15).chain(17..=19).chain(21..=25);
    assert_eq!(numbers, all.chain([32, 39]).collect());
    assert!(told.contains(&(15, (1024, 1024))));
}

#[test]
fn differences_are_as_they_are_said() {
    for (plan, said) in edges::differences() {
        let answer = answer_lines(Door::First, &lines(plan), MOST_STEPS);
        assert_eq!(
            (answer.number, answer.taken, answer.fresh),
            said,
            "{plan:?}"
        );
    }
}
