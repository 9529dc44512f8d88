//! Checks response plans, written down as sheets, by the proved checker, and writes
//! such sheets.
//!
//! ```
//! use kirvoghus::{check, Buffers, Verdict, MOST_STEPS};
//!
//! // 7 as Bool
//! let sheet = b"  3                   0    0\n 12                   2    0\n  4                   0    0\n 22                   7    0\n";
//! let mut buffers = Buffers::new();
//! let outcome = check(sheet, MOST_STEPS, &mut buffers);
//! let Verdict::SubtypingError { left, right } = &outcome.verdict else {
//!     panic!("{outcome}");
//! };
//! assert_eq!(format!("{left} is no {right}"), "Int is no Bool");
//! assert_eq!(buffers.solution(0).unwrap().to_string(), "Int");
//! assert_eq!(outcome.to_string(), "    15     0     4     1     1     1     1");
//! ```
//!
//! A call takes at most about 1 MB of stack, and no memory but its stack and
//! the buffers it is lent; the types of an [`Outcome`] are made after it.

#![deny(missing_docs)]
#![deny(unsafe_code)]

mod buffers;
mod foreign;
mod outcome;
mod types;
mod writing;

use foreign::Call;

pub use buffers::{report_words, Buffers, Solutions, BOARD_WORDS, BOOK_WORDS};
pub use outcome::{Outcome, Verdict};
pub use types::{Name, Type};
pub use writing::{write_sheet, write_sheet_into, Triple, Unwritten, MOST_TRIPLES};

/// The number of the interface that this crate is made for; it rises with every
/// change that a caller has to follow.
pub const VERSION: u32 = 6;

/// The highest ceiling: so many entries may be taken at most.
pub const MOST_STEPS: u32 = 10_000;

/// The limit of [`check`]: so many nodes may one type have that is written out.
pub const LIMIT: u32 = 1_024;

/// The highest limit that a caller may pick; the lowest is 1.
pub const MOST_LIMIT: u32 = 4_096;

/// The bytes of a sheet's line, with its LF.
pub const LINE_BYTES: usize = 29;

/// The most bytes of a sheet: 2,000 lines.
pub const SHEET_BYTES: usize = 58_000;

/// Checks the plan on a sheet, with at most `ceiling` entries taken, and at most
/// [`LIMIT`] nodes in a type that is written out.
///
/// Any bytes, any ceiling, any lengths and contents of the buffers are taken.
/// A call that is refused before a run (verdicts 1 to 5 and 32) leaves the
/// buffers as they were. After any other the board is 0, the book holds the
/// solutions given in the run and the levels, the report the types told, both
/// else 0; words past [`BOARD_WORDS`], [`BOOK_WORDS`] and [`report_words`] keep
/// what they held.
pub fn check(sheet: &[u8], ceiling: u32, buffers: &mut Buffers) -> Outcome {
    check_with(sheet, ceiling, LIMIT, buffers)
}

/// The same with at most `limit` nodes in a type that is written out. A higher
/// limit changes no verdict but [`Verdict::WrittenOutTooLong`].
pub fn check_with(sheet: &[u8], ceiling: u32, limit: u32, buffers: &mut Buffers) -> Outcome {
    put(Call::First, sheet, ceiling, limit, buffers)
}

/// The strict call: as [`check`], but that a run may end with
/// [`Verdict::OutOfScope`], which [`check`] never gives. Any other outcome is that
/// of [`check`], with the same words in the buffers.
pub fn check_strict(sheet: &[u8], ceiling: u32, buffers: &mut Buffers) -> Outcome {
    check_strict_with(sheet, ceiling, LIMIT, buffers)
}

/// The same beside [`check_with`].
pub fn check_strict_with(sheet: &[u8], ceiling: u32, limit: u32, buffers: &mut Buffers) -> Outcome {
    put(Call::Strict, sheet, ceiling, limit, buffers)
}

fn put(call: Call, sheet: &[u8], ceiling: u32, limit: u32, buffers: &mut Buffers) -> Outcome {
    let numbers = foreign::check_type(
        call,
        sheet,
        ceiling,
        limit,
        &mut buffers.board,
        &mut buffers.book,
        &mut buffers.report,
    );
    Outcome::new(numbers, &buffers.report)
}

/// Reads a sheet without checking its plan.
///
/// [`Verdict::Accepted`] says no more than that the sheet holds a plan; else
/// it is [`Verdict::BadLength`], [`Verdict::Misspelt`] or [`Verdict::Unfit`].
pub fn read_sheet(sheet: &[u8]) -> Verdict {
    let (number, line) = foreign::read_sheet(sheet);
    Verdict::new([number, line, 0, 0, 0, 0, 0], &[])
}

/// The lines of the term that starts at a line of a sheet, lines being numbered
/// from 1, as a part of the sheet: empty if no whole term starts there, and if
/// there are more bytes than a sheet has, [`SHEET_BYTES`].
///
/// The sheet need not hold a plan; the part reads as that term by itself.
pub fn term(sheet: &[u8], line: u32) -> &[u8] {
    let from = LINE_BYTES * line.saturating_sub(1) as usize;
    match foreign::term_bytes(sheet, line) {
        0 => &[],
        n => &sheet[from..from + n],
    }
}

/// The number of the interface that the linked library has: [`VERSION`], unless
/// the library is another than this crate is made for.
pub fn version() -> u32 {
    foreign::version()
}
