//! What the tests share.
#![allow(dead_code)]

pub mod record;

use kirvoghus::Buffers;

pub const SEVEN_AS_INT: [i64; 12] = [3, 0, 0, 12, 1, 0, 4, 0, 0, 22, 7, 0];

/// A sheet from kind, value, count by threes.
pub fn sheet(numbers: &[i64]) -> Vec<u8> {
    let lines = numbers.chunks(3);
    let text: String = lines
        .map(|n| format!("{:3}{:20}{:5}\n", n[0], n[1], n[2]))
        .collect();
    text.into_bytes()
}

/// So many products of one part around Int.
pub fn nested(depth: usize) -> Vec<i64> {
    let mut numbers = [16, 0, 1].repeat(depth);
    numbers.extend([12, 1, 0]);
    numbers
}

/// Buffers of these lengths, with words that no run leaves.
pub fn dirty(board: usize, book: usize, report: usize) -> Buffers {
    let mut buffers = Buffers::with_lengths(board, book, report);
    let word = |at: usize| (at as u32).wrapping_mul(0x9e37_79b9) | 0x8000_0000;
    let fill = |words: &mut [u32]| {
        for (at, place) in words.iter_mut().enumerate() {
            *place = word(at);
        }
    };
    fill(buffers.board_mut());
    fill(buffers.book_mut());
    fill(buffers.report_mut());
    buffers
}
