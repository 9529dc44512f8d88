//! One call put to the Rust and to the proved checker: the seven numbers and
//! every word of the three buffers.

use crate::oracle::{answer_call, sizes, Answer, Door};
use crate::proved::{lend, Buffers, Check};

const UNKNOWNS: usize = 1000;

/// Words of the book for each number: start, count, level.
const STRIDE: usize = 3;

/// Buffers of the lengths given, with words that no run leaves.
fn dirty(salt: u32, lengths: [usize; 3]) -> Buffers {
    lengths.map(|length| {
        let word = |at: usize| (at as u32).wrapping_mul(0x9e37_79b9) ^ salt | 0x8000_0000;
        (0..length).map(word).collect()
    })
}

/// The buffers that the Rust's answer under a limit stands for.
pub fn expected(answer: &Answer, limit: u32, before: &Buffers) -> Buffers {
    let mut after = before.clone();
    if [1, 2, 3, 4, 5, 32].contains(&answer.number) {
        return after;
    }
    for (buffer, size) in after.iter_mut().zip(sizes(limit)) {
        buffer[..size].fill(0);
    }
    let [_, book, report] = &mut after;
    for (at, (kind, value)) in answer.report.iter().enumerate() {
        report[2 * at] = *kind;
        report[2 * at + 1] = *value;
    }
    write_book(answer, book);
    after
}

/// Into a book of zeros.
fn write_book(answer: &Answer, book: &mut [u32]) {
    let mut start = STRIDE * UNKNOWNS;
    for (unknown, nodes) in &answer.solutions {
        let first = STRIDE * *unknown as usize;
        book[first] = start as u32;
        book[first + 1] = nodes.len() as u32;
        for (kind, value) in nodes {
            book[start] = *kind;
            book[start + 1] = *value;
            start += 2;
        }
    }
    for (number, level) in answer.levels.iter().enumerate() {
        book[STRIDE * number + 2] = *level;
    }
}

/// What came of putting one sheet to both.
pub struct Put {
    pub answer: Answer,
    pub seven: [u32; 7],
    /// The number returned, the seven and every word of the buffers.
    pub same: bool,
}

/// A sheet with what else a call takes: the buffers by their lengths.
pub struct Call<'a> {
    pub door: Door,
    pub sheet: &'a [u8],
    pub ceiling: u32,
    pub limit: u32,
    pub lengths: [usize; 3],
}

/// Puts one call to both, with buffers dirty by the salt.
pub fn put(check: Check, call: &Call, salt: u32) -> Put {
    let Call {
        door,
        sheet,
        ceiling,
        limit,
        lengths,
    } = *call;
    let before = dirty(salt, lengths);
    let answer = answer_call(door, sheet, ceiling, limit, lengths);
    let mut after = before.clone();
    let (number, seven) = check(door, sheet, ceiling, limit, lend(&mut after, lengths));
    let same = number == answer.number
        && seven == answer.seven()
        && after == expected(&answer, limit, &before);
    Put {
        answer,
        seven,
        same,
    }
}
