//! The buffers that a call is lent, and the solutions in the book.

use crate::types::Type;
use crate::{LIMIT, MOST_LIMIT};

/// The least length of the board, in words.
pub const BOARD_WORDS: usize = 12_288;

/// The least length of the book, in words.
pub const BOOK_WORDS: usize = 11_192;

/// The least length of the report for a limit, in words.
pub const fn report_words(limit: u32) -> usize {
    4 * limit as usize
}

/// The numbers that the book has words for: start, count and level of each.
const NUMBERS: usize = 1_000;
const NUMBER_WORDS: usize = 3;

/// Board, book and report. One value serves any number of calls.
///
/// The book tells the solutions and levels of the last run; a call that is
/// refused before a run leaves it as it was.
#[derive(Debug, Clone, PartialEq, Eq)]
pub struct Buffers {
    pub(crate) board: Vec<u32>,
    pub(crate) book: Vec<u32>,
    pub(crate) report: Vec<u32>,
}

impl Buffers {
    /// Buffers of the least lengths that [`check`](crate::check) takes, all
    /// words 0.
    pub fn new() -> Self {
        Self::for_limit(LIMIT)
    }

    /// Buffers of the least lengths that a call with this limit takes, all
    /// words 0. A limit above [`MOST_LIMIT`] is refused by any call, so its
    /// report is as long as for that one.
    pub fn for_limit(limit: u32) -> Self {
        Self::with_lengths(BOARD_WORDS, BOOK_WORDS, report_words(limit.min(MOST_LIMIT)))
    }

    /// Buffers of these lengths in words, all words 0. A call refuses shorter
    /// ones and keeps the tails of longer ones: of a board of 16,384 words the
    /// last 4,096.
    pub fn with_lengths(board: usize, book: usize, report: usize) -> Self {
        Buffers {
            board: vec![0; board],
            book: vec![0; book],
            report: vec![0; report],
        }
    }

    /// The words of the board.
    pub fn board(&self) -> &[u32] {
        &self.board
    }

    /// The words of the book.
    pub fn book(&self) -> &[u32] {
        &self.book
    }

    /// The words of the report.
    pub fn report(&self) -> &[u32] {
        &self.report
    }

    /// The words of the board, to be written.
    pub fn board_mut(&mut self) -> &mut [u32] {
        &mut self.board
    }

    /// The words of the book, to be written.
    pub fn book_mut(&mut self) -> &mut [u32] {
        &mut self.book
    }

    /// The words of the report, to be written.
    pub fn report_mut(&mut self) -> &mut [u32] {
        &mut self.report
    }

    /// The solution of an unknown as it was given: unknowns in it may have
    /// solutions themselves. `None` if it has none.
    pub fn solution(&self, unknown: u32) -> Option<Type> {
        let (start, nodes) = self.pair(unknown)?;
        let end = start.checked_add(nodes.checked_mul(2)?)?;
        Type::from_words(self.book.get(start..end)?)
    }

    /// The solved unknowns with their solutions, in order of solving.
    pub fn solutions(&self) -> Solutions<'_> {
        let unknowns = 0..NUMBERS as u32;
        let mut order: Vec<(usize, u32)> = unknowns
            .filter_map(|unknown| Some((self.pair(unknown)?.0, unknown)))
            .collect();
        // Solutions are laid down one after the other, so the starts rise.
        order.sort_unstable();
        Solutions {
            buffers: self,
            order: order.into_iter(),
        }
    }

    /// The level of a number. An unknown's is its own number when it is made, or
    /// the level of the unknown that it splits; it is lowered to the level of each
    /// unknown that is solved with it in the solution. 0 for a fresh universal and
    /// for the numbers from [`Outcome::fresh`](crate::Outcome::fresh) on; `None` if
    /// the book has no words for the number.
    pub fn level(&self, number: u32) -> Option<u32> {
        self.words(number).map(|[_, _, level]| level)
    }

    /// The start and the node count of a solution, if there is one.
    fn pair(&self, unknown: u32) -> Option<(usize, usize)> {
        let [start, nodes, _] = self.words(unknown)?;
        (nodes > 0).then_some((start as usize, nodes as usize))
    }

    /// The words of a number: start, count and level.
    fn words(&self, number: u32) -> Option<[u32; NUMBER_WORDS]> {
        let number = usize::try_from(number).ok()?;
        if number >= NUMBERS {
            return None;
        }
        let words = self.book.get(NUMBER_WORDS * number..)?;
        words.first_chunk().copied()
    }
}

impl Default for Buffers {
    fn default() -> Self {
        Self::new()
    }
}

/// The solved unknowns with their solutions, in order of solving; made by
/// [`Buffers::solutions`].
#[derive(Debug, Clone)]
pub struct Solutions<'a> {
    buffers: &'a Buffers,
    order: std::vec::IntoIter<(usize, u32)>,
}

impl Iterator for Solutions<'_> {
    type Item = (u32, Type);

    fn next(&mut self) -> Option<Self::Item> {
        let (_, unknown) = self.order.next()?;
        Some((unknown, self.buffers.solution(unknown)?))
    }
}
