//! A plan as people write it, one triple a line, to its sheet, or to what
//! `plan_write` says of it.

use crate::sheet::{in_range, line, Line, KINDS, LIT_INT, MOST_LINES};
use crate::writes::{needed, write_call, TRIPLE};

/// What is wrong with a line of the listing.
#[derive(Debug, Clone, Copy, PartialEq, Eq)]
enum Wrong {
    NoNumber,
    Few,
    Many,
    Long,
    Kind,
    Negative,
    Range,
    Unfit,
    Lacking,
}

impl Wrong {
    fn words(self) -> &'static str {
        match self {
            Wrong::NoNumber => {
                "something here is no number from -9223372036854775808 to 9223372036854775807 \
                 in plain digits"
            }
            Wrong::Few => "a triple is three numbers, kind, value and count, and here are fewer",
            Wrong::Many => "a triple is three numbers, kind, value and count, and here are more",
            Wrong::Long => "a plan has at most 2000 triples, and here is another",
            Wrong::Kind => "there is no such kind",
            Wrong::Negative => "only a value of kind 22 may be negative",
            Wrong::Range => "the value or the count is out of range for this kind",
            Wrong::Unfit => "the plan can't go on with this triple",
            Wrong::Lacking => "after this triple the plan lacks another",
        }
    }
}

/// The triples up to the first line that is none, and what is wrong with that one.
#[derive(Default)]
struct Listing {
    words: Vec<i64>,
    /// The line of each triple, from 1.
    lines: Vec<usize>,
    fault: Option<(usize, Wrong)>,
}

/// The sheet, or the sentence that says why there is none.
pub fn written(text: &[u8]) -> Vec<u8> {
    let listing = scan(text);
    let mut sheet = vec![0; needed(&listing.words)];
    let [number, place, ..] = write_call(&listing.words, &mut sheet);
    match (wrong(&listing, number, place as usize), number) {
        (Some((line, wrong)), _) => sentence(&format!("line {line}: {}", wrong.words())),
        (None, 3) => sentence("no triple on standard input"),
        (None, _) => sheet,
    }
}

fn sentence(words: &str) -> Vec<u8> {
    format!("plan_write: {words}.\n").into_bytes()
}

/// The first wrong line, by the writer's answer to the triples and by the scan.
fn wrong(listing: &Listing, number: u32, place: usize) -> Option<(usize, Wrong)> {
    let Listing {
        words,
        lines,
        fault,
    } = listing;
    match number {
        5 if place <= lines.len() => {
            let triple = &words[TRIPLE * (place - 1)..];
            Some((
                lines[place - 1],
                diagnosis(line(triple[0], triple[1], triple[2])),
            ))
        }
        5 => fault.or(lines.last().map(|last| (*last, Wrong::Lacking))),
        _ => *fault,
    }
}

/// Why a plan can't go on with a triple, as far as the triple alone shows it.
fn diagnosis(triple: Line) -> Wrong {
    if !KINDS.contains(&triple.kind) {
        Wrong::Kind
    } else if triple.value < 0 && triple.kind != LIT_INT {
        Wrong::Negative
    } else if !in_range(triple) {
        Wrong::Range
    } else {
        Wrong::Unfit
    }
}

fn scan(text: &[u8]) -> Listing {
    let mut listing = Listing::default();
    for (at, line) in text.split(|byte| *byte == b'\n').enumerate() {
        match triple(line, listing.lines.len()) {
            Ok(None) => {}
            Ok(Some(triple)) => {
                listing.words.extend(triple);
                listing.lines.push(at + 1);
            }
            Err(wrong) => {
                listing.fault = Some((at + 1, wrong));
                break;
            }
        }
    }
    listing
}

/// The triple on a line, after so many; nothing on a line that is passed over.
fn triple(line: &[u8], before: usize) -> Result<Option<[i64; TRIPLE]>, Wrong> {
    let words = line.split(|byte| b" \t\r".contains(byte));
    let words: Vec<&[u8]> = words.filter(|word| !word.is_empty()).collect();
    if words.first().is_none_or(|word| word.starts_with(b"#")) {
        return Ok(None);
    }
    let mut numbers = Vec::new();
    for word in words {
        numbers.push(number(word).ok_or(Wrong::NoNumber)?);
        match numbers.len() {
            1 if before == MOST_LINES => return Err(Wrong::Long),
            4 => return Err(Wrong::Many),
            _ => {}
        }
    }
    numbers.try_into().map(Some).map_err(|_| Wrong::Few)
}

/// The one spelling of a number in signed 64 bits.
fn number(word: &[u8]) -> Option<i64> {
    let text = std::str::from_utf8(word).ok()?;
    let number: i64 = text.parse().ok()?;
    (number.to_string() == text).then_some(number)
}
