//! Listings to sheets, and what is said of those that are wrong.

use super::FIRST;
use crate::listing::written;
use crate::sheet::{write, MOST_LINES};
use crate::wall::long_sheet;
use crate::with_stack;

fn said(text: &str) -> String {
    String::from_utf8(written(text.as_bytes())).expect("ASCII")
}

/// The sentence of a wrong listing, after the line that it names.
fn wrong(text: &str) -> (usize, String) {
    let said = said(text);
    let told = said
        .strip_prefix("plan_write: line ")
        .and_then(|rest| rest.strip_suffix(".\n"));
    let (line, what) = told.and_then(|told| told.split_once(": ")).expect(&said);
    (line.parse().expect("a number"), what.to_string())
}

const NO_NUMBER: &str =
    "something here is no number from -9223372036854775808 to 9223372036854775807 in plain digits";
const FEW: &str = "a triple is three numbers, kind, value and count, and here are fewer";
const MANY: &str = "a triple is three numbers, kind, value and count, and here are more";
const LONG: &str = "a plan has at most 2000 triples, and here is another";
const KIND: &str = "there is no such kind";
const NEGATIVE: &str = "only a value of kind 22 may be negative";
const RANGE: &str = "the value or the count is out of range for this kind";
const UNFIT: &str = "the plan can't go on with this triple";
const LACKING: &str = "after this triple the plan lacks another";

fn is_wrong(text: &str, line: usize, what: &str) {
    assert_eq!(wrong(text), (line, what.to_string()), "{text}");
}

#[test]
fn blanks_and_comments_are_passed_over() {
    for text in [
        "3 0 0\n12 1 0\n4 0 0\n22 7 0\n",
        "3 0 0\n12 1 0\n4 0 0\n22 7 0",
        "3 0 0\r\n12 1 0\r\n4 0 0\r\n22 7 0\r\n",
        "# 7 as Int\n\n3 0 0\n \t\r\n \t# 1 2\n  12\t 1\r0 \n#\n4 0 0\n#22\n22 7 0 \n\n#",
    ] {
        assert_eq!(said(text), FIRST, "{text}");
    }
}

#[test]
fn no_triple() {
    for text in ["", "\n", "  \n\t\r\n", "# 3 0 0", "#\n#\n"] {
        assert_eq!(said(text), "plan_write: no triple on standard input.\n");
    }
}

#[test]
fn words_that_are_no_numbers() {
    for word in [
        "x",
        "+7",
        "-0",
        "007",
        "-07",
        "00",
        "-",
        "7.",
        "0x7",
        "7#",
        "9223372036854775808",
        "-9223372036854775809",
        "99999999999999999999",
        "7,0",
        "\u{b}7",
        "\0",
        "\u{ff}",
    ] {
        is_wrong(
            &format!("3 0 0\n12 1 0\n4 0 0\n\n22 {word} 0"),
            5,
            NO_NUMBER,
        );
    }
    assert!(written(b"3 0 \xff").starts_with(b"plan_write: line 1: something"));
    is_wrong("3 #0 0", 1, NO_NUMBER);
    // Before what is told of the line as a whole.
    is_wrong("3 0 0 x", 1, NO_NUMBER);
    is_wrong("3 x", 1, NO_NUMBER);
}

#[test]
fn literals_of_64_bits() {
    for value in [i64::MIN, i64::MAX, 0] {
        let sheet = said(&format!("3 0 0\n12 1 0\n4 0 0\n22 {value} 0\n"));
        assert_eq!(
            sheet,
            FIRST.replace("                   7", &format!("{value:20}"))
        );
    }
}

#[test]
fn lines_that_are_no_triples() {
    is_wrong("3 0 0\n12 1\n", 2, FEW);
    is_wrong("3 0 0\n12 1", 2, FEW);
    is_wrong("3", 1, FEW);
    is_wrong("3 0 0 0\n", 1, MANY);
    is_wrong("3 0 0 0 x\n", 1, MANY);
    is_wrong("3 0 0 12 1 0", 1, MANY);
}

#[test]
fn bad_triples() {
    for (triple, what) in [
        ("0 0 0", KIND),
        ("17 1 0", KIND),
        ("-22 7 0", KIND),
        ("1000 7 0", KIND),
        ("5 -1 -1", KIND),
        ("21 -10 0", NEGATIVE),
        ("24 -1 5", NEGATIVE),
        ("21 0 0", RANGE),
        ("21 10000 0", RANGE),
        ("22 -7 -1", RANGE),
        ("22 7 1", RANGE),
        ("28 7 0", RANGE),
        ("24 1 0", RANGE),
        ("26 20 100", RANGE),
        ("1 0 0", RANGE),
        ("2 20 1", RANGE),
        ("3 1 0", RANGE),
        ("4 0 1", RANGE),
        ("41 0 1", RANGE),
        ("1 20 0", UNFIT),
        ("3 0 0", UNFIT),
        ("12 1 0", UNFIT),
        ("42 10 0", UNFIT),
    ] {
        is_wrong(
            &format!("3 0 0\n12 1 0\n# the term\n4 0 0\n{triple}"),
            5,
            what,
        );
    }
    is_wrong("3 0 0\n12 1 0\n4 0 0\n22 7 0\n\n22 7 0\n", 6, UNFIT);
    is_wrong("1 20 0\n12 1 0\n1 20 0\n12 1 0", 3, UNFIT);
}

#[test]
fn a_lacking_triple() {
    is_wrong("3 0 0", 1, LACKING);
    is_wrong(
        "3 0 0\n12 1 0\n4 0 0\n24 0 0\n22 7 0\n# more\n\n",
        5,
        LACKING,
    );
}

/// A bad triple goes before a fault after it; a fault goes before what is lacking.
#[test]
fn the_first_wrong_line_is_told() {
    is_wrong("3 0 0\n17 1 0\n12 x", 2, KIND);
    is_wrong("3 0 0\n12 x\n17 1 0", 2, NO_NUMBER);
    is_wrong("3 0 0\n12 1", 2, FEW);
    is_wrong("x", 1, NO_NUMBER);
}

/// The listing of a plan with a long type, after a comment.
fn long(triples: usize) -> String {
    let lines = long_sheet(triples).into_iter();
    let lines = lines.map(|line| format!("{} {} {}\n", line.kind, line.value, line.count));
    "# long\n".to_string() + &lines.collect::<String>()
}

#[test]
fn two_thousand_triples() {
    with_stack(|| {
        let most = long(MOST_LINES);
        assert_eq!(written(most.as_bytes()), write(&long_sheet(MOST_LINES)));
        assert_eq!(said(&(most.clone() + "\n# 22 7 0\n")), said(&most));
        is_wrong(&(most.clone() + "\n22 7 0\n"), 2003, LONG);
        is_wrong(&(most.clone() + "22"), 2002, LONG);
        is_wrong(&(most.clone() + "x"), 2002, NO_NUMBER);
        is_wrong(&(most.clone() + "22 x"), 2002, LONG);
        // The first 2,000 lack one, which is not told; a bad one among them is.
        is_wrong(&long(MOST_LINES + 1), 2002, LONG);
        is_wrong(&(most.replacen("3 0 0", "3 0 1", 1) + "22 7 0"), 2, RANGE);
    });
}
