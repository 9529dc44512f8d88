//! Short, dirty and longer buffers, and calls that are refused.

mod common;

use common::{dirty, sheet, SEVEN_AS_INT};
use kirvoghus::{
    check, check_strict_with, check_with, report_words, Buffers, Verdict, BOARD_WORDS, BOOK_WORDS,
    LIMIT, LINE_BYTES, MOST_LIMIT, MOST_STEPS,
};

const REPORT_WORDS: usize = report_words(LIMIT);

const BOOL: [i64; 12] = [3, 0, 0, 12, 2, 0, 4, 0, 0, 22, 7, 0];

/// A refused call, of either kind: all numbers but the first are 0 and no word is
/// written.
fn refused(sheet: &[u8], ceiling: u32, buffers: Buffers) -> Verdict {
    refused_with(sheet, ceiling, LIMIT, buffers)
}

fn refused_with(sheet: &[u8], ceiling: u32, limit: u32, mut buffers: Buffers) -> Verdict {
    let before = buffers.clone();
    let outcome = check_with(sheet, ceiling, limit, &mut buffers);
    let strict = check_strict_with(sheet, ceiling, limit, &mut buffers);
    assert_eq!(strict, outcome);
    assert_eq!(buffers, before);
    let [_, _, rest @ ..] = outcome.numbers();
    assert_eq!(rest, [0; 5]);
    outcome.verdict
}

fn least() -> Buffers {
    dirty(BOARD_WORDS, BOOK_WORDS, REPORT_WORDS)
}

#[test]
fn short_buffers() {
    let good = sheet(&SEVEN_AS_INT);
    let short = [
        [BOARD_WORDS - 1, BOOK_WORDS, REPORT_WORDS],
        [BOARD_WORDS, BOOK_WORDS - 1, REPORT_WORDS],
        [BOARD_WORDS, BOOK_WORDS, REPORT_WORDS - 1],
        [0, BOOK_WORDS, REPORT_WORDS],
        [BOARD_WORDS, 0, REPORT_WORDS],
        [BOARD_WORDS, BOOK_WORDS, 0],
        [0, 0, 0],
    ];
    for [board, book, report] in short {
        let buffers = || dirty(board, book, report);
        assert_eq!(
            refused(&good, MOST_STEPS, buffers()),
            Verdict::BufferTooShort
        );
        // Before the sheet, after the ceiling.
        assert_eq!(refused(b"", MOST_STEPS, buffers()), Verdict::BufferTooShort);
        assert_eq!(
            refused(&good, MOST_STEPS + 1, buffers()),
            Verdict::CeilingTooHigh
        );
    }
}

/// The book that interface 4 asked for, and one word less than is asked for now.
#[test]
fn books_without_levels() {
    for book in [10_192, 11_191] {
        let buffers = dirty(BOARD_WORDS, book, REPORT_WORDS);
        let verdict = refused(&sheet(&SEVEN_AS_INT), MOST_STEPS, buffers);
        assert_eq!(verdict, Verdict::BufferTooShort);
    }
    assert_eq!(BOOK_WORDS, 11_192);
}

#[test]
fn refused_sheets() {
    let good = sheet(&SEVEN_AS_INT);
    let lacking = &good[..3 * LINE_BYTES];
    assert_eq!(refused(&good, u32::MAX, least()), Verdict::CeilingTooHigh);
    assert_eq!(refused(b"", MOST_STEPS, least()), Verdict::BadLength);
    assert_eq!(refused(&good[1..], MOST_STEPS, least()), Verdict::BadLength);
    assert_eq!(
        refused(lacking, MOST_STEPS, least()),
        Verdict::Unfit { line: 4 }
    );
    let mut misspelt = good.clone();
    misspelt[3 * LINE_BYTES - 1] = b' ';
    assert_eq!(
        refused(&misspelt, MOST_STEPS, least()),
        Verdict::Misspelt { line: 3 }
    );
}

#[test]
fn a_refused_call_keeps_the_last_book() {
    let mut buffers = Buffers::new();
    check(&sheet(&SEVEN_AS_INT), MOST_STEPS, &mut buffers);
    check(b"", MOST_STEPS, &mut buffers);
    assert_eq!(buffers.solutions().count(), 1);
}

#[test]
fn dirty_buffers() {
    for plan in [SEVEN_AS_INT, BOOL] {
        for ceiling in [0, 4, MOST_STEPS] {
            let (mut clean, mut used) = (Buffers::new(), least());
            let first = check(&sheet(&plan), ceiling, &mut clean);
            let second = check(&sheet(&plan), ceiling, &mut used);
            assert_eq!(first, second);
            assert_eq!(clean, used);
        }
    }
}

#[test]
fn words_after_a_run() {
    let mut buffers = least();
    check(&sheet(&BOOL), MOST_STEPS, &mut buffers);
    assert!(buffers.board().iter().all(|word| *word == 0));
    let mut book = vec![0; BOOK_WORDS];
    book[..3].copy_from_slice(&[3000, 1, 0]);
    book[3000..3002].copy_from_slice(&[12, 1]);
    assert_eq!(buffers.book(), book);
    let mut report = vec![0; REPORT_WORDS];
    report[..4].copy_from_slice(&[12, 1, 12, 2]);
    assert_eq!(buffers.report(), report);
}

#[test]
fn tails_kept() {
    let mut longer = dirty(BOARD_WORDS + 1, BOOK_WORDS + 100, REPORT_WORDS + 5000);
    let before = longer.clone();
    let mut exact = Buffers::new();
    let outcome = check(&sheet(&BOOL), MOST_STEPS, &mut longer);
    assert_eq!(outcome, check(&sheet(&BOOL), MOST_STEPS, &mut exact));
    assert_eq!(longer.board()[..BOARD_WORDS], *exact.board());
    assert_eq!(longer.book()[..BOOK_WORDS], *exact.book());
    assert_eq!(longer.report()[..REPORT_WORDS], *exact.report());
    assert_eq!(longer.board()[BOARD_WORDS..], before.board()[BOARD_WORDS..]);
    assert_eq!(longer.book()[BOOK_WORDS..], before.book()[BOOK_WORDS..]);
    assert_eq!(
        longer.report()[REPORT_WORDS..],
        before.report()[REPORT_WORDS..]
    );
}

/// A board of the length that interface 2 asked for.
#[test]
fn a_board_of_16_384_words_keeps_its_last_4_096() {
    let mut buffers = dirty(16_384, BOOK_WORDS, REPORT_WORDS);
    let before = buffers.clone();
    check(&sheet(&SEVEN_AS_INT), MOST_STEPS, &mut buffers);
    assert_eq!(buffers.board()[..12_288], [0; 12_288]);
    assert_eq!(buffers.board()[12_288..], before.board()[12_288..]);
}

#[test]
fn limits_out_of_range() {
    let good = sheet(&SEVEN_AS_INT);
    for limit in [0, MOST_LIMIT + 1, 1 << 30, u32::MAX] {
        let out_of_range = |sheet, buffers| {
            let verdict = refused_with(sheet, MOST_STEPS, limit, buffers);
            assert_eq!(verdict, Verdict::LimitOutOfRange);
        };
        out_of_range(&good, Buffers::for_limit(limit));
        // Before the buffers and the sheet, after the ceiling.
        out_of_range(b"", dirty(0, 0, 0));
        assert_eq!(
            refused_with(&good, MOST_STEPS + 1, limit, dirty(0, 0, 0)),
            Verdict::CeilingTooHigh
        );
    }
}

#[test]
fn the_report_goes_with_the_limit() {
    let good = sheet(&SEVEN_AS_INT);
    for limit in [1, 2, 64, LIMIT, MOST_LIMIT] {
        let mut buffers = Buffers::for_limit(limit);
        assert!(check_with(&good, MOST_STEPS, limit, &mut buffers).is_accepted());
        let short = dirty(BOARD_WORDS, BOOK_WORDS, report_words(limit) - 1);
        let verdict = refused_with(&good, MOST_STEPS, limit, short);
        assert_eq!(verdict, Verdict::BufferTooShort);
    }
}

#[test]
fn a_low_limit_keeps_the_tail() {
    let mut buffers = least();
    let before = buffers.clone();
    let outcome = check_with(&sheet(&BOOL), MOST_STEPS, 1, &mut buffers);
    assert!(matches!(outcome.verdict, Verdict::SubtypingError { .. }));
    assert_eq!(buffers.report()[..4], [12, 1, 12, 2]);
    assert_eq!(buffers.report()[4..], before.report()[4..]);
}

#[test]
fn a_type_written_out_meets_its_limit() {
    // 7 as Int → Int: three nodes are written out.
    let arrow = sheet(&[3, 0, 0, 13, 0, 0, 12, 1, 0, 12, 1, 0, 4, 0, 0, 22, 7, 0]);
    for limit in 1..6 {
        let mut buffers = Buffers::for_limit(limit);
        let verdict = check_with(&arrow, MOST_STEPS, limit, &mut buffers).verdict;
        match limit < 3 {
            true => assert_eq!(verdict, Verdict::WrittenOutTooLong),
            false => assert!(matches!(verdict, Verdict::SubtypingError { .. })),
        }
    }
}

#[test]
fn words_that_are_no_book() {
    // Whatever stands in the book, reading it ends with an answer.
    let used = least();
    assert!(used.solutions().count() <= 1000);
    for unknown in [0, 999, 1000, u32::MAX] {
        assert_eq!(used.solution(unknown), None);
    }
    for number in [1000, u32::MAX] {
        assert_eq!(used.level(number), None);
    }
    let short = Buffers::with_lengths(0, 2, 0);
    assert_eq!((short.solution(0), short.level(0)), (None, None));
}
