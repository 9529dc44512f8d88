//! The proved checker, its reader and its writer, from the static library that build.rs
//! links with the feature `proved`.

use crate::oracle::Door;
use crate::sheet::Refusal;

/// Board, book and report.
pub type Buffers = [Vec<u32>; 3];

/// The words of them that a call is lent.
pub type Lent<'a> = [&'a mut [u32]; 3];

/// Call, sheet, ceiling, limit and buffers to the number returned and the seven.
pub type Check = fn(Door, &[u8], u32, u32, Lent) -> (u32, [u32; 7]);

/// So many words of each buffer, from its first one on.
pub fn lend(buffers: &mut Buffers, lengths: [usize; 3]) -> Lent<'_> {
    let [board, book, report] = buffers;
    [
        &mut board[..lengths[0]],
        &mut book[..lengths[1]],
        &mut report[..lengths[2]],
    ]
}

/// Number and line, both 0 for a plan.
pub type Read = fn(&[u8]) -> Refusal;

/// Words, three a triple, and the output to the number returned and the seven.
pub type Write = fn(&[i64], &mut [u8]) -> (u32, [u32; 7]);

pub struct Proved {
    pub check: Check,
    pub read: Read,
    pub write: Write,
}

/// Says how, where the library is not linked.
pub fn proved() -> Option<Proved> {
    const HOW: &str = "build with the proved checker: put libexports.a at ../target/staticlib/ \
        or its path into KIRVOGHUS_LIB, then cargo build --offline --release --features proved";
    if PROVED.is_none() {
        eprintln!("{HOW}");
    }
    PROVED
}

#[cfg(not(feature = "proved"))]
const PROVED: Option<Proved> = None;
#[cfg(feature = "proved")]
const PROVED: Option<Proved> = Some(Proved {
    check: linked::check,
    read: linked::read,
    write: linked::write,
});

#[cfg(feature = "proved")]
mod linked {
    use super::{Door, Lent, Refusal};

    extern "C" {
        fn kirvoghus_read_sheet(sheet: *const u8, len: usize, line: *mut u32) -> u32;
        fn kirvoghus_check_type(
            sheet: *const u8,
            sheet_len: usize,
            ceiling: u32,
            limit: u32,
            board: *mut u32,
            board_len: usize,
            book: *mut u32,
            book_len: usize,
            report: *mut u32,
            report_len: usize,
            result: *mut [u32; 7],
        ) -> u32;
        fn kirvoghus_check_type_strict(
            sheet: *const u8,
            sheet_len: usize,
            ceiling: u32,
            limit: u32,
            board: *mut u32,
            board_len: usize,
            book: *mut u32,
            book_len: usize,
            report: *mut u32,
            report_len: usize,
            result: *mut [u32; 7],
        ) -> u32;
        fn kirvoghus_write_sheet(
            triples: *const i64,
            words: usize,
            out: *mut u8,
            out_len: usize,
            result: *mut [u32; 7],
        ) -> u32;
    }

    pub fn read(sheet: &[u8]) -> Refusal {
        let mut line = 0;
        // The library reads `len` bytes from the pointer and writes one number.
        let number = unsafe { kirvoghus_read_sheet(sheet.as_ptr(), sheet.len(), &mut line) };
        Refusal { number, line }
    }

    pub fn write(words: &[i64], out: &mut [u8]) -> (u32, [u32; 7]) {
        let mut result = [u32::MAX; 7];
        // The library stays within the lengths that it is told.
        let number = unsafe {
            kirvoghus_write_sheet(
                words.as_ptr(),
                words.len(),
                out.as_mut_ptr(),
                out.len(),
                &mut result,
            )
        };
        (number, result)
    }

    pub fn check(
        door: Door,
        sheet: &[u8],
        ceiling: u32,
        limit: u32,
        [board, book, report]: Lent,
    ) -> (u32, [u32; 7]) {
        let entry = match door {
            Door::First => kirvoghus_check_type,
            Door::Strict => kirvoghus_check_type_strict,
        };
        let mut result = [u32::MAX; 7];
        // The library stays within the lengths that it is told.
        let number = unsafe {
            entry(
                sheet.as_ptr(),
                sheet.len(),
                ceiling,
                limit,
                board.as_mut_ptr(),
                board.len(),
                book.as_mut_ptr(),
                book.len(),
                report.as_mut_ptr(),
                report.len(),
                &mut result,
            )
        };
        (number, result)
    }
}
