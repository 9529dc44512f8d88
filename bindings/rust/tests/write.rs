//! Change request W1: triples to sheets. What was read is written as it stood, and
//! every refusal leaves the output as it was.

mod common;

use common::record::recorded;
use common::{nested, sheet, SEVEN_AS_INT};
use kirvoghus::{
    check, read_sheet, write_sheet, write_sheet_into, Buffers, Triple, Unwritten, Verdict,
    LINE_BYTES, MOST_STEPS, MOST_TRIPLES, SHEET_BYTES,
};

fn triples(numbers: &[i64]) -> Vec<Triple> {
    let triples = numbers.chunks(3);
    triples.map(|n| Triple::new(n[0], n[1], n[2])).collect()
}

/// The triples of a well-spelt sheet, by its columns.
fn read(sheet: &[u8]) -> Vec<Triple> {
    let number = |field: &[u8]| {
        let text = std::str::from_utf8(field).expect("ASCII");
        text.trim_start().parse().expect("a number")
    };
    let lines = sheet.chunks(LINE_BYTES);
    lines
        .map(|line| Triple {
            kind: number(&line[..3]),
            value: number(&line[3..23]),
            count: number(&line[23..28]),
        })
        .collect()
}

/// Writes into a slice of this length, whose bytes were dots.
fn into(triples: &[Triple], len: usize) -> (Result<Vec<u8>, Unwritten>, Vec<u8>) {
    let mut out = vec![b'.'; len];
    let written = write_sheet_into(triples, &mut out).map(<[u8]>::to_vec);
    (written, out)
}

/// What is refused, under any length of the output, of which every byte is kept.
fn refused(numbers: &[i64]) -> Unwritten {
    let triples = triples(numbers);
    let unwritten = write_sheet(&triples).expect_err("refused");
    let needed = LINE_BYTES * triples.len();
    for len in [0, 1, needed, needed + 7] {
        assert_eq!(into(&triples, len), (Err(unwritten), vec![b'.'; len]));
    }
    unwritten
}

fn unfit(triple: u32) -> Unwritten {
    Unwritten::Unfit { triple }
}

/// 7 as Int with a triple changed.
fn with_triple(at: usize, triple: [i64; 3]) -> Vec<i64> {
    let mut numbers = SEVEN_AS_INT.to_vec();
    numbers[3 * at..3 * at + 3].copy_from_slice(&triple);
    numbers
}

/// 7 as products of products, in so many triples.
fn long(count: usize) -> Vec<i64> {
    [vec![3, 0, 0], nested(count - 4), vec![4, 0, 0, 22, 7, 0]].concat()
}

#[test]
fn seven_as_int() {
    let sheet = sheet(&SEVEN_AS_INT);
    let triples = triples(&SEVEN_AS_INT);
    let written = write_sheet(&triples).expect("a plan");
    assert_eq!(written, sheet);
    assert!(check(&written, MOST_STEPS, &mut Buffers::new()).is_accepted());
    for tail in ["", ".", "......."] {
        let out = [&sheet[..], tail.as_bytes()].concat();
        assert_eq!(into(&triples, out.len()), (Ok(sheet.clone()), out));
    }
    for len in [0, 1, sheet.len() - 1] {
        let kept = vec![b'.'; len];
        assert_eq!(into(&triples, len), (Err(Unwritten::OutputTooShort), kept));
    }
}

#[test]
fn recorded_plans() {
    let (mut plans, mut others) = (0, 0);
    for mut record in recorded() {
        let sheet = record.call().sheet;
        if read_sheet(&sheet) != Verdict::Accepted {
            others += 1;
            continue;
        }
        plans += 1;
        let triples = read(&sheet);
        assert_eq!(write_sheet(&triples), Ok(sheet.clone()));
        let longer = [&sheet[..], b"."].concat();
        assert_eq!(into(&triples, longer.len()), (Ok(sheet), longer));
    }
    assert!(plans > 6_000 && others > 100, "{plans} and {others}");
}

/// A well-spelt sheet that holds no plan: the reader's line is the triple's place.
#[test]
fn recorded_sheets_that_are_no_plan() {
    let mut met = 0;
    for mut record in recorded() {
        let sheet = record.call().sheet;
        if let Verdict::Unfit { line } = read_sheet(&sheet) {
            assert_eq!(write_sheet(&read(&sheet)), Err(unfit(line)));
            met += 1;
        }
    }
    assert!(met > 100, "{met}");
}

#[test]
fn lengths() {
    assert_eq!(refused(&[]), Unwritten::BadLength);
    assert_eq!(refused(&long(MOST_TRIPLES + 1)), Unwritten::BadLength);
    assert_eq!(refused(&[0; 3 * 10_000]), Unwritten::BadLength);
    let longest = write_sheet(&triples(&long(MOST_TRIPLES))).expect("a plan");
    assert_eq!(longest, sheet(&long(MOST_TRIPLES)));
    assert_eq!(longest.len(), SHEET_BYTES);
}

#[test]
fn bad_triples() {
    for (at, triple) in [
        (1, [11, 0, 0]),
        (1, [12, -1, 0]),
        (3, [21, -10, 0]),
        (3, [1000, 7, 0]),
        (3, [22 + (1 << 32), 7, 0]),
        (3, [-22, 7, 0]),
        (3, [i64::MIN; 3]),
        (3, [i64::MAX; 3]),
        (3, [22, 7, -1]),
        (3, [22, 7, 100_000]),
        (1, [16, 0, 100]),
    ] {
        let place = unfit(at as u32 + 1);
        assert_eq!(refused(&with_triple(at, triple)), place, "{triple:?}");
    }
    assert_eq!(
        refused(&[&SEVEN_AS_INT[..], &[21, -10, 0]].concat()),
        unfit(5)
    );
    assert_eq!(refused(&SEVEN_AS_INT[..9]), unfit(4));
}

#[test]
fn literals_of_64_bits() {
    for value in [i64::MIN, i64::MAX, -1, 0] {
        let plan = with_triple(3, [22, value, 0]);
        let written = write_sheet(&triples(&plan)).expect("a plan");
        assert_eq!(written, sheet(&plan));
        assert_eq!(read(&written), triples(&plan));
    }
}

#[test]
fn refusals_in_words() {
    let said = |numbers: &[i64]| refused(numbers).to_string();
    assert_eq!(said(&[]), "a plan has 1 to 2000 triples");
    assert_eq!(
        said(&SEVEN_AS_INT[..9]),
        "triple 4 can't continue the plan, or is lacking"
    );
}
