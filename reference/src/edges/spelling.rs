//! Lines that are spelt otherwise: every byte of a line, every field, every kind
//! with a minus sign, and which misspelt line is told.

use super::hosts::{spelt, Host};
use super::{lines, Sheet, KINDS, OTHER_KINDS};
use crate::sheet::{write, LINE};

pub fn sheets() -> Vec<Sheet> {
    [bytes(), fields(), signs(), first_misspelt()].concat()
}

const SEVEN_AS_INT: [i64; 12] = [3, 0, 0, 12, 1, 0, 4, 0, 0, 22, 7, 0];

/// A good sheet of four lines with one of them spelt otherwise.
fn with_line(at: usize, bytes: &[u8]) -> Sheet {
    let mut sheet = write(&lines(&SEVEN_AS_INT));
    sheet[at * LINE..(at + 1) * LINE].copy_from_slice(bytes);
    sheet
}

/// NUL, tab, LF, VT, CR, signs, what stands beside the digits, and bytes that are
/// digits or blanks in other alphabets.
const ANY: [u8; 22] = [
    0, 9, 10, 11, 13, 32, 43, 45, 46, 47, 48, 49, 53, 57, 58, 97, 127, 128, 160, 178, 185, 255,
];
const SOME: [u8; 9] = [0, 9, 10, 13, 32, 45, 48, 53, 255];

/// Each byte of a line replaced: of a literal with its sign, and of a type.
fn bytes() -> Vec<Sheet> {
    let replaced = |at: usize, line: Vec<u8>, pool: &[u8]| {
        let places = (0..LINE).flat_map(|place| pool.iter().map(move |byte| (place, *byte)));
        let sheet = |(place, byte): (usize, u8)| {
            let mut line = line.clone();
            line[place] = byte;
            with_line(at, &line)
        };
        places.map(sheet).collect::<Vec<_>>()
    };
    [
        replaced(3, spelt("22", "-1203", "0"), &ANY),
        replaced(1, spelt("12", "1", "0"), &SOME),
        replaced(0, spelt("3", "0", "0"), &[0, 32, 48, 53]),
    ]
    .concat()
}

/// Each field in spellings that are none, and some that are.
fn fields() -> Vec<Sheet> {
    let kinds = [
        "", "-", "+", "0", "022", "+22", "-22", "-0", "22 ", "2 2", "2", "2  ", "\t22", "22\t",
        "a", "2a", "0x2", "2.", "00", "000", "007", "7", "122", "220", "\n22", "22\n", "22\0",
    ];
    let values = [
        "",
        "-",
        "+",
        "--7",
        "+7",
        "-+7",
        "- 7",
        "-7 ",
        "7 ",
        "7  ",
        "7 7",
        "07",
        "007",
        "-07",
        "-0",
        "-00",
        "+0",
        "00",
        "0",
        "\t7",
        "7\t",
        "7\r",
        "7\0",
        "\07",
        "7\n",
        "\n7",
        "0x7",
        "7e1",
        "7.0",
        "7,0",
        "a",
        "1_0",
        "1 000",
        "7                   ",
        "-7                  ",
        "0000000000000000007",
        "00000000000000000007",
        "00000000000000000000",
        "--------------------",
        "+9223372036854775807",
        "-0000000000000000007",
    ];
    let counts = [
        "", "-", "+", "-0", "-1", "+0", "+1", "00", "000", "0000", "00000", "01", "0 ", "0    ",
        "0 0", "0\t", "\t0", "0\r", "0\n", "\n0", "\0", "a", "0x0", "1", "-9999", "99999",
    ];
    let kinds = kinds.map(|kind| spelt(kind, "7", "0"));
    let counts = counts.map(|count| spelt("22", "7", count));
    let literals = values.map(|value| spelt("22", value, "0"));
    let terms = [&kinds[..], &counts, &literals].concat();
    let terms = terms.iter().map(|line| with_line(3, line));
    let types = values.map(|value| spelt("12", value, "0"));
    let types = types.iter().map(|line| with_line(1, line));
    terms.chain(types).collect()
}

/// A minus sign on each kind, with parts as they must be.
fn signs() -> Vec<Sheet> {
    let near = [21, 23, 2, 122, 220, 222, 322, 922];
    let kinds = KINDS.iter().chain(&OTHER_KINDS).chain(&near);
    let values = [
        "-1",
        "-0",
        "-9999",
        "-9223372036854775808",
        "-9223372036854775809",
    ];
    let sheets = kinds.flat_map(|kind| {
        let host = Host::new(*kind, 1);
        values.map(|value| host.sheet(&spelt(&kind.to_string(), value, "0")))
    });
    let counts = KINDS.map(|kind| Host::new(kind, 1).sheet(&spelt(&kind.to_string(), "1", "-1")));
    sheets.chain(counts).collect()
}

/// The first of several misspelt lines, before any line that is out of place.
fn first_misspelt() -> Vec<Sheet> {
    let good = write(&lines(&SEVEN_AS_INT));
    let mut sheets = Vec::new();
    for mask in 1..16_usize {
        for out_of_place in [None, Some(0), Some(3)] {
            let mut sheet = good.clone();
            if let Some(at) = out_of_place {
                sheet[at * LINE..at * LINE + 3].copy_from_slice(b"999");
            }
            let misspelt = (0..4).filter(|at| mask >> at & 1 == 1);
            misspelt.for_each(|at| sheet[(at + 1) * LINE - 1] = b' ');
            sheets.push(sheet);
        }
    }
    sheets
}
