//! The calls of the library, and the crate's only unsafe code.
//!
//! They are sound for any arguments: the library asks of its caller that the
//! pointers are valid for the lengths told and that no two areas overlap. Both
//! come from references to slices, of which the writable ones are unique, and
//! every bit pattern is a `u8`, a `u32` or an `i64`. The library is proved to read and
//! write within those lengths, keeps no pointer and never unwinds.

#![allow(unsafe_code)]

use crate::Triple;

extern "C" {
    fn kirvoghus_check_type(
        sheet: *const u8,
        sheet_len: usize,
        ceiling: u32,
        limit: u32,
        board: *mut u32,
        board_len: usize,
        book: *mut u32,
        book_len: usize,
        report: *mut u32,
        report_len: usize,
        result: *mut [u32; 7],
    ) -> u32;

    fn kirvoghus_check_type_strict(
        sheet: *const u8,
        sheet_len: usize,
        ceiling: u32,
        limit: u32,
        board: *mut u32,
        board_len: usize,
        book: *mut u32,
        book_len: usize,
        report: *mut u32,
        report_len: usize,
        result: *mut [u32; 7],
    ) -> u32;

    fn kirvoghus_read_sheet(sheet: *const u8, sheet_len: usize, line: *mut u32) -> u32;

    fn kirvoghus_write_sheet(
        triples: *const i64,
        words: usize,
        out: *mut u8,
        out_len: usize,
        result: *mut [u32; 7],
    ) -> u32;

    fn kirvoghus_term_bytes(sheet: *const u8, sheet_len: usize, line: u32) -> usize;

    fn kirvoghus_version() -> u32;
}

/// The two entry calls.
#[derive(Clone, Copy)]
pub enum Call {
    First,
    Strict,
}

/// The seven numbers.
pub fn check_type(
    call: Call,
    sheet: &[u8],
    ceiling: u32,
    limit: u32,
    board: &mut [u32],
    book: &mut [u32],
    report: &mut [u32],
) -> [u32; 7] {
    let entry = match call {
        Call::First => kirvoghus_check_type,
        Call::Strict => kirvoghus_check_type_strict,
    };
    let mut result = [0; 7];
    // SAFETY: pointers and lengths of the same slices, which can't overlap.
    unsafe {
        entry(
            sheet.as_ptr(),
            sheet.len(),
            ceiling,
            limit,
            board.as_mut_ptr(),
            board.len(),
            book.as_mut_ptr(),
            book.len(),
            report.as_mut_ptr(),
            report.len(),
            &mut result,
        );
    }
    result
}

/// The number of a sheet, 0, 3, 4 or 5, and its line.
pub fn read_sheet(sheet: &[u8]) -> (u32, u32) {
    let mut line = 0;
    // SAFETY: as above.
    let number = unsafe { kirvoghus_read_sheet(sheet.as_ptr(), sheet.len(), &mut line) };
    (number, line)
}

/// The words of a triple, which is laid out as they are.
const TRIPLE_WORDS: usize = size_of::<Triple>() / size_of::<i64>();

/// The seven numbers.
pub fn write_sheet(triples: &[Triple], out: &mut [u8]) -> [u32; 7] {
    let mut result = [0; 7];
    // SAFETY: as above. A `Triple` is `repr(C)` and three `i64`, so the slice is so
    // many words one after the other.
    unsafe {
        kirvoghus_write_sheet(
            triples.as_ptr().cast(),
            TRIPLE_WORDS * triples.len(),
            out.as_mut_ptr(),
            out.len(),
            &mut result,
        );
    }
    result
}

/// How many bytes the term has that starts at a line, from 1; 0 if none does, or if
/// there are more bytes than a sheet has.
pub fn term_bytes(sheet: &[u8], line: u32) -> usize {
    // SAFETY: as above.
    unsafe { kirvoghus_term_bytes(sheet.as_ptr(), sheet.len(), line) }
}

/// The number of the library's interface.
pub fn version() -> u32 {
    // SAFETY: nothing is asked.
    unsafe { kirvoghus_version() }
}

#[cfg(test)]
mod tests {
    use crate::{
        report_words, version, BOARD_WORDS, BOOK_WORDS, LIMIT, LINE_BYTES, MOST_LIMIT, MOST_STEPS,
        SHEET_BYTES, VERSION,
    };

    extern "C" {
        fn kirvoghus_board_words() -> usize;
        fn kirvoghus_book_words() -> usize;
        fn kirvoghus_report_words(limit: u32) -> usize;
        fn kirvoghus_line_bytes() -> usize;
        fn kirvoghus_sheet_bytes() -> usize;
        fn kirvoghus_ceiling() -> u32;
        fn kirvoghus_limit() -> u32;
        fn kirvoghus_limit_most() -> u32;
    }

    #[test]
    fn the_library_says_the_same() {
        assert_eq!(version(), VERSION);
        // SAFETY: nothing is asked.
        unsafe {
            assert_eq!(kirvoghus_board_words(), BOARD_WORDS);
            assert_eq!(kirvoghus_book_words(), BOOK_WORDS);
            for limit in 0..=MOST_LIMIT {
                assert_eq!(kirvoghus_report_words(limit), report_words(limit));
            }
            assert_eq!(kirvoghus_line_bytes(), LINE_BYTES);
            assert_eq!(kirvoghus_sheet_bytes(), SHEET_BYTES);
            assert_eq!(kirvoghus_ceiling(), MOST_STEPS);
            assert_eq!(kirvoghus_limit(), LIMIT);
            assert_eq!(kirvoghus_limit_most(), MOST_LIMIT);
        }
    }
}
