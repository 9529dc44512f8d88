//! The proved reader beside the one of `sheet`.

use crate::damage::damaged;
use crate::generate::random;
use crate::proved::proved;
use crate::random::Random;
use crate::sheet::{self, write, Refusal};
use std::collections::BTreeMap;

/// Number and line, both 0 for a plan.
fn own(sheet: &[u8]) -> Refusal {
    sheet::read(sheet)
        .err()
        .unwrap_or(Refusal { number: 0, line: 0 })
}

#[derive(Default)]
struct Tally {
    numbers: BTreeMap<u32, usize>,
    damages: BTreeMap<(&'static str, u32), usize>,
    differences: usize,
}

/// True if no sheet is read differently.
pub fn compare(seed: u64, count: usize) -> bool {
    let Some(proved) = proved() else {
        return false;
    };
    let mut numbers = Random::new(seed);
    let mut tally = Tally::default();
    for (at, made) in random(seed, count).enumerate() {
        let (title, sheet) = match at % 2 {
            0 => ("none", write(&made.lines)),
            _ => damaged(&mut numbers, &made.lines),
        };
        let (own, proved) = (own(&sheet), (proved.read)(&sheet));
        *tally.numbers.entry(own.number).or_default() += 1;
        *tally.damages.entry((title, own.number)).or_default() += 1;
        if own != proved {
            tally.differences += 1;
            show_difference(tally.differences, title, &sheet, own, proved);
        }
    }
    tally.show();
    tally.differences == 0
}

fn show_difference(nth: usize, title: &str, sheet: &[u8], own: Refusal, proved: Refusal) {
    const MOST_SHOWN: usize = 10;
    if nth <= MOST_SHOWN {
        println!("difference {nth} (damage: {title}): here {own:?}, proved {proved:?}");
        println!("{}", sheet.escape_ascii().to_string().replace("\\n", "\n"));
    }
}

impl Tally {
    fn show(&self) {
        for (number, count) in &self.numbers {
            println!("number {number}: {count}");
        }
        for ((title, number), count) in &self.damages {
            println!("damage {title}: {count} with number {number}");
        }
        println!("differences: {}", self.differences);
    }
}
