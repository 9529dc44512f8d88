//! Triples to a sheet: a second implementation of the writing call, and the
//! proved one beside it.

pub mod words;

use crate::generate::random;
use crate::proved::{proved, Proved};
use crate::random::Random;
use crate::record::sheet_of;
use crate::sheet::{
    self, line, read_line, read_lines, read_plan, write_line, Line, LINE, MOST_LINES,
};
use std::collections::BTreeMap;

/// Words of a triple: kind, value, count.
pub const TRIPLE: usize = 3;

/// The writing call: the seven numbers, and the sheet at the start of the output
/// where the first of them is 0.
pub fn write_call(words: &[i64], out: &mut [u8]) -> [u32; 7] {
    let triples = words.len() / TRIPLE;
    if words.len() % TRIPLE != 0 || triples == 0 || triples > MOST_LINES {
        return seven(3, 0);
    }
    let lines: Vec<Line> = words
        .chunks(TRIPLE)
        .map(|w| line(w[0], w[1], w[2]))
        .collect();
    if let Some(at) = first_bad(&lines) {
        return seven(5, at);
    }
    let Some(sheet) = out.get_mut(..needed(words)) else {
        return seven(31, 0);
    };
    sheet.copy_from_slice(&sheet::write(&lines));
    seven(0, 0)
}

fn seven(number: u32, line: u32) -> [u32; 7] {
    [number, line, 0, 0, 0, 0, 0]
}

/// The bytes of a sheet of these triples.
pub fn needed(words: &[i64]) -> usize {
    LINE * (words.len() / TRIPLE)
}

/// A triple that some line of a sheet says, whatever stands around it.
fn is_sayable(triple: Line) -> bool {
    let text = write_line(triple);
    text.len() == LINE && read_line(&text) == Some(triple)
}

/// The first triple, from 1, with which no plan goes on; one more than there are
/// where one is lacking; nothing where they are a plan.
fn first_bad(lines: &[Line]) -> Option<u32> {
    let front = lines.iter().take_while(|line| is_sayable(**line)).count();
    match read_plan(&lines[..front]) {
        Err(refusal) => Some(refusal.line),
        Ok(_) => (front < lines.len()).then_some(front as u32 + 1),
    }
}

/// Bytes past those that are lent, which a call has to keep as well.
const BEYOND: usize = 40;

/// Bytes that no sheet has, the same for the same salt.
fn dirt(salt: usize, len: usize) -> Vec<u8> {
    (salt..salt + len)
        .map(|at| (at * 167 >> 3) as u8 | 0x80)
        .collect()
}

/// What both say of one list of words.
struct Put {
    own: [u32; 7],
    proved: (u32, [u32; 7]),
    /// The number returned, the seven and every byte, lent or not; and what was
    /// written is read back.
    same: bool,
}

/// Puts the words to both, with so many bytes of dirt lent.
fn put(proved: &Proved, words: &[i64], lent: usize, salt: usize) -> Put {
    let mut expected = dirt(salt, lent + BEYOND);
    let mut found = expected.clone();
    let own = write_call(words, &mut expected[..lent]);
    let (number, seven) = (proved.write)(words, &mut found[..lent]);
    let read_back = own[0] != 0 || reads_back(proved, words, &expected[..needed(words)]);
    Put {
        own,
        proved: (number, seven),
        same: number == own[0] && seven == own && found == expected && read_back,
    }
}

/// Both readers take the sheet, and its lines are the triples.
fn reads_back(proved: &Proved, words: &[i64], sheet: &[u8]) -> bool {
    (proved.read)(sheet).number == 0 && read_lines(sheet).map(words_of).as_deref() == Ok(words)
}

/// The lines as words, three a triple.
pub fn words_of(lines: Vec<Line>) -> Vec<i64> {
    let words = |line: Line| [line.kind, line.value, line.count];
    lines.into_iter().flat_map(words).collect()
}

#[derive(Default)]
struct Tally {
    numbers: BTreeMap<u32, usize>,
    /// Of those with 5.
    lacking: usize,
    damages: BTreeMap<(&'static str, u32), usize>,
    rooms: BTreeMap<(&'static str, u32), usize>,
    differences: usize,
}

/// True if no list of words is taken differently; and where a list of records is
/// given, if its plans are written as they stand there.
pub fn compare(seed: u64, count: usize, list: Option<&str>) -> bool {
    let Some(proved) = proved() else {
        return false;
    };
    let random = compare_random(&proved, seed, count);
    let recorded = list.is_none_or(|list| compare_recorded(&proved, list));
    random && recorded
}

/// True if no list of words by the seed is taken differently.
pub fn compare_random(proved: &Proved, seed: u64, count: usize) -> bool {
    let mut numbers = Random::new(seed);
    let mut tally = Tally::default();
    for (at, made) in random(seed, count).enumerate() {
        let mut words = words_of(made.lines);
        let title = match at % 2 {
            0 => "none",
            _ => words::damage(&mut numbers, &mut words),
        };
        let (room, lent) = words::room(&mut numbers, needed(&words));
        let put = put(proved, &words, lent, at);
        tally.add(&words, title, room, &put);
        if !put.same {
            tally.differences += 1;
            show_difference(tally.differences, title, room, &words, &put);
        }
    }
    tally.show();
    tally.differences == 0
}

fn show_difference(nth: usize, title: &str, room: &str, words: &[i64], put: &Put) {
    const MOST_SHOWN: usize = 10;
    if nth <= MOST_SHOWN {
        let Put { own, proved, .. } = put;
        println!(
            "difference {nth} (damage: {title}, output: {room}): here {own:?}, proved {proved:?}"
        );
        println!("{words:?}");
    }
}

impl Tally {
    fn add(&mut self, words: &[i64], title: &'static str, room: &'static str, put: &Put) {
        let [number, line, ..] = put.own;
        *self.numbers.entry(number).or_default() += 1;
        *self.damages.entry((title, number)).or_default() += 1;
        *self.rooms.entry((room, number)).or_default() += 1;
        self.lacking += usize::from(number == 5 && line as usize > words.len() / TRIPLE);
    }

    fn show(&self) {
        for (number, count) in &self.numbers {
            println!("number {number}: {count}");
        }
        println!("number 5 with a triple lacking: {}", self.lacking);
        for ((title, number), count) in &self.damages {
            println!("damage {title}: {count} with number {number}");
        }
        for ((room, number), count) in &self.rooms {
            println!("output {room}: {count} with number {number}");
        }
        println!("differences: {}", self.differences);
    }
}

/// Every record whose sheet is a plan, read here, written by the proved call and
/// compared with the sheet byte by byte. True if there are such records, none is
/// written otherwise and every line is a record.
pub fn compare_recorded(proved: &Proved, list: &str) -> bool {
    let (mut plans, mut others) = (0, 0);
    let (mut differing, mut malformed) = (Vec::new(), Vec::new());
    for (at, text) in list.lines().enumerate() {
        if text.starts_with('#') {
            continue;
        }
        match sheet_of(text) {
            None => malformed.push(at + 1),
            Some(sheet) if sheet::read(&sheet).is_err() => others += 1,
            Some(sheet) => {
                plans += 1;
                if !is_written(proved, &sheet, at) {
                    differing.push(at + 1);
                }
            }
        }
    }
    println!("recorded plans written: {plans}; records that are no plan: {others}");
    println!("written otherwise: {} {differing:?}", differing.len());
    println!("malformed: {} {malformed:?}", malformed.len());
    plans > 0 && differing.is_empty() && malformed.is_empty()
}

/// Whether the sheet's triples are written as the sheet, the bytes after it kept.
fn is_written(proved: &Proved, sheet: &[u8], salt: usize) -> bool {
    let words = words_of(read_lines(sheet).expect("a plan is well-spelt"));
    let before = dirt(salt, sheet.len() + BEYOND);
    let mut after = before.clone();
    let told = (proved.write)(&words, &mut after);
    told == (0, seven(0, 0)) && after == [sheet, &before[sheet.len()..]].concat()
}
