//! The raw records of a list put to the proved checker, with soiled buffers of
//! which a call is lent as many words as its record says.

use crate::checks::expected;
use crate::oracle::Answer;
use crate::proved::{lend, proved, Check, Proved};
use crate::record::raw::{decode, Raw, MOST_WORDS};
use std::collections::BTreeMap;

/// What stands in every word before a call.
const DIRT: u32 = 3_735_928_559;

#[derive(Default)]
struct Tally {
    numbers: BTreeMap<u32, usize>,
    differing: Vec<usize>,
    malformed: Vec<usize>,
}

/// True if every raw record is read and its answer and all words are as recorded.
pub fn compare(list: &str) -> bool {
    let Some(Proved { check, .. }) = proved() else {
        return false;
    };
    let mut tally = Tally::default();
    for (at, text) in list.lines().enumerate() {
        if !["3 ", "4 "].iter().any(|call| text.starts_with(call)) {
            continue;
        }
        match decode(text) {
            None => tally.malformed.push(at + 1),
            Some((raw, answer)) => {
                *tally.numbers.entry(answer.number).or_default() += 1;
                if !is_same(check, &raw, &answer) {
                    tally.differing.push(at + 1);
                }
            }
        }
    }
    tally.show();
    !tally.numbers.is_empty() && tally.differing.is_empty() && tally.malformed.is_empty()
}

/// The number returned, the seven and every word, lent or not.
fn is_same(check: Check, raw: &Raw, answer: &Answer) -> bool {
    let before = MOST_WORDS.map(|words| vec![DIRT; words]);
    let mut after = before.clone();
    let lent = lend(&mut after, raw.lengths);
    let (number, seven) = check(raw.door, &raw.sheet, raw.ceiling, raw.limit, lent);
    number == answer.number
        && seven == answer.seven()
        && after == expected(answer, raw.limit, &before)
}

impl Tally {
    fn show(&self) {
        for (number, count) in &self.numbers {
            println!("number {number}: {count}");
        }
        println!("raw records: {}", self.numbers.values().sum::<usize>());
        println!("differing: {} {:?}", self.differing.len(), self.differing);
        println!("malformed: {} {:?}", self.malformed.len(), self.malformed);
    }
}
