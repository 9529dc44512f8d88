//! Sheets that are no longer good: one damage each, by the seed.

use crate::random::Random;
use crate::sheet::{line, write, write_line, Line, KINDS, LINE, MOST_LINES};
use crate::wall::long_sheet;

type Damage = fn(&mut Random, &mut Vec<u8>);

const DAMAGES: [(&str, Damage); 25] = [
    ("one byte", one_byte),
    ("cut at a byte", cut_at_byte),
    ("cut at a line", cut_at_line),
    ("lines swapped", swap_lines),
    ("line doubled", double_line),
    ("line dropped", drop_line),
    ("line inserted", insert_line),
    ("leading zero", |random, sheet| {
        rewrite(random, sheet, |old| format!("0{old}"))
    }),
    ("plus sign", |random, sheet| {
        rewrite(random, sheet, |old| format!("+{old}"))
    }),
    ("minus sign", |random, sheet| {
        rewrite(random, sheet, |old| format!("-{old}"))
    }),
    ("minus zero", |random, sheet| {
        rewrite(random, sheet, |_| "-0".to_string())
    }),
    ("minus alone", |random, sheet| {
        rewrite(random, sheet, |_| "-".to_string())
    }),
    ("blank field", |random, sheet| {
        rewrite(random, sheet, |_| String::new())
    }),
    ("left-justified", left_justified),
    ("tab", |random, sheet| replace_byte(random, sheet, b"\t")),
    ("NUL or high byte", |random, sheet| {
        replace_byte(random, sheet, &[0, 128, 255, 178])
    }),
    ("line end", line_end),
    ("signed 64 bits", edge_value),
    ("count", count),
    ("name", name),
    ("kind", kind),
    ("order of headings", swap_headings),
    ("repeated name", repeated_name),
    ("2,000 lines", |random, sheet| {
        long(random, sheet, MOST_LINES)
    }),
    ("2,001 lines", |random, sheet| {
        long(random, sheet, MOST_LINES + 1)
    }),
];

/// What was done, and the sheet after it.
pub fn damaged(random: &mut Random, lines: &[Line]) -> (&'static str, Vec<u8>) {
    let (title, damage) = *random.pick(&DAMAGES);
    let mut sheet = write(lines);
    damage(random, &mut sheet);
    (title, sheet)
}

/// Damages that leave every line well-spelt.
pub fn damaged_lines(random: &mut Random, lines: &[Line]) -> Vec<Line> {
    let damages: [Damage; 10] = [
        cut_at_line,
        swap_lines,
        double_line,
        drop_line,
        insert_line,
        count,
        name,
        kind,
        swap_headings,
        repeated_name,
    ];
    let damage = *random.pick(&damages);
    let mut sheet = write(lines);
    damage(random, &mut sheet);
    crate::sheet::read_lines(&sheet).unwrap_or(lines.to_vec())
}

fn line_count(sheet: &[u8]) -> usize {
    sheet.len() / LINE
}

fn some_line(random: &mut Random, sheet: &[u8]) -> usize {
    random.below(line_count(sheet))
}

fn line_bytes(sheet: &[u8], at: usize) -> Vec<u8> {
    sheet[at * LINE..(at + 1) * LINE].to_vec()
}

fn set_line(sheet: &mut [u8], at: usize, bytes: &[u8]) {
    sheet[at * LINE..(at + 1) * LINE].copy_from_slice(bytes);
}

fn one_byte(random: &mut Random, sheet: &mut Vec<u8>) {
    replace_byte(random, sheet, b"0123456789  -+\n\r\t.aZ\0\xff")
}

fn replace_byte(random: &mut Random, sheet: &mut Vec<u8>, pool: &[u8]) {
    let at = random.below(sheet.len());
    sheet[at] = *random.pick(pool);
}

fn cut_at_byte(random: &mut Random, sheet: &mut Vec<u8>) {
    let len = random.below(sheet.len());
    sheet.truncate(len);
}

fn cut_at_line(random: &mut Random, sheet: &mut Vec<u8>) {
    let len = some_line(random, sheet) * LINE;
    sheet.truncate(len);
}

fn swap_two(sheet: &mut [u8], first: usize, second: usize) {
    let (one, other) = (line_bytes(sheet, first), line_bytes(sheet, second));
    set_line(sheet, first, &other);
    set_line(sheet, second, &one);
}

fn swap_lines(random: &mut Random, sheet: &mut Vec<u8>) {
    let (first, second) = (some_line(random, sheet), some_line(random, sheet));
    swap_two(sheet, first, second);
}

fn insert_at(sheet: &mut Vec<u8>, at: usize, bytes: Vec<u8>) {
    sheet.splice(at * LINE..at * LINE, bytes);
}

fn double_line(random: &mut Random, sheet: &mut Vec<u8>) {
    let at = some_line(random, sheet);
    let bytes = line_bytes(sheet, at);
    insert_at(sheet, at, bytes);
}

fn drop_line(random: &mut Random, sheet: &mut Vec<u8>) {
    let at = some_line(random, sheet);
    sheet.drain(at * LINE..(at + 1) * LINE);
}

/// Any line that can stand somewhere, and some that cannot.
fn insert_line(random: &mut Random, sheet: &mut Vec<u8>) {
    let inserted = line(
        *random.pick(&KINDS),
        *random.pick(&[0, 0, 1, 4, 6, 7, 10, 20, 9999]),
        *random.pick(&[0, 0, 0, 1, 2, 99]),
    );
    let at = random.below(line_count(sheet) + 1);
    insert_at(sheet, at, write_line(inserted));
}

/// First byte and length of kind, value and count.
const FIELDS: [(usize, usize); 3] = [(0, 3), (3, 20), (23, 5)];

fn field_text(sheet: &[u8], at: usize, field: usize) -> String {
    let (start, len) = FIELDS[field];
    let start = at * LINE + start;
    String::from_utf8_lossy(&sheet[start..start + len])
        .trim()
        .to_string()
}

/// Right-justified; what is too long loses its last bytes.
fn set_field(sheet: &mut [u8], at: usize, field: usize, text: &str) {
    let (start, len) = FIELDS[field];
    let text = format!("{text:>len$}");
    let start = at * LINE + start;
    sheet[start..start + len].copy_from_slice(&text.as_bytes()[..len]);
}

fn rewrite(random: &mut Random, sheet: &mut [u8], new: fn(&str) -> String) {
    let (at, field) = (some_line(random, sheet), random.below(3));
    let old = field_text(sheet, at, field);
    set_field(sheet, at, field, &new(&old));
}

fn left_justified(random: &mut Random, sheet: &mut Vec<u8>) {
    let (at, field) = (some_line(random, sheet), random.below(3));
    let text = field_text(sheet, at, field);
    let len = FIELDS[field].1;
    set_field(sheet, at, field, &format!("{text:<len$}"));
}

/// CR LF, CR alone, no end, or the end one byte early.
fn line_end(random: &mut Random, sheet: &mut Vec<u8>) {
    let end = some_line(random, sheet) * LINE + LINE - 1;
    match random.below(4) {
        0 => sheet.insert(end, b'\r'),
        1 => sheet[end] = b'\r',
        2 => sheet[end] = b' ',
        _ => sheet.swap(end - 1, end),
    }
}

const EDGES: [&str; 9] = [
    "9223372036854775807",
    "9223372036854775808",
    "-9223372036854775808",
    "-9223372036854775809",
    "18446744073709551615",
    "18446744073709551616",
    "99999999999999999999",
    "10000000000000000000",
    "4294967296",
];

/// Mostly on a literal, where a value can be that far out.
fn edge_value(random: &mut Random, sheet: &mut Vec<u8>) {
    let literals: Vec<usize> = (0..line_count(sheet))
        .filter(|at| field_text(sheet, *at, 0) == "22")
        .collect();
    let at = match literals.is_empty() || random.chance(20) {
        true => some_line(random, sheet),
        false => *random.pick(&literals),
    };
    let text: &str = random.pick::<&str>(&EDGES);
    set_field(sheet, at, 1, text);
}

fn set_one_of(random: &mut Random, sheet: &mut [u8], field: usize, texts: &[&str]) {
    let at = some_line(random, sheet);
    let text: &str = random.pick::<&str>(texts);
    set_field(sheet, at, field, text);
}

fn count(random: &mut Random, sheet: &mut Vec<u8>) {
    set_one_of(
        random,
        sheet,
        2,
        &["0", "1", "98", "99", "100", "101", "65536", "99999"],
    );
}

fn name(random: &mut Random, sheet: &mut Vec<u8>) {
    set_one_of(
        random,
        sheet,
        1,
        &["0", "1", "9998", "9999", "10000", "65537", "4294967297"],
    );
}

fn kind(random: &mut Random, sheet: &mut Vec<u8>) {
    let kinds = [
        "0", "1", "2", "3", "4", "5", "10", "17", "18", "19", "20", "31", "40", "44", "999",
    ];
    set_one_of(random, sheet, 0, &kinds);
}

/// The lines of kinds 1 to 4.
fn headings(sheet: &[u8]) -> Vec<usize> {
    (0..line_count(sheet))
        .filter(|at| field_text(sheet, *at, 0).len() == 1)
        .collect()
}

fn swap_headings(random: &mut Random, sheet: &mut Vec<u8>) {
    let headings = headings(sheet);
    let (first, second) = (*random.pick(&headings), *random.pick(&headings));
    swap_two(sheet, first, second);
}

/// A heading takes the name of the one before it, or one more or less.
fn repeated_name(random: &mut Random, sheet: &mut Vec<u8>) {
    let headings = headings(sheet);
    let at = random.below(headings.len());
    let before = field_text(sheet, headings[at.saturating_sub(1)], 1);
    let before: i64 = before.parse().unwrap_or(0);
    let value = (before + random.below(3) as i64 - 1).max(0);
    set_field(sheet, headings[at], 1, &value.to_string());
}

/// A good sheet of that length, or one whose last line is doubled in it.
fn long(random: &mut Random, sheet: &mut Vec<u8>, lines: usize) {
    *sheet = match random.below(3) {
        0 => write(&long_sheet(lines - 1)),
        _ => write(&long_sheet(lines)),
    };
    if line_count(sheet) < lines {
        let last = line_bytes(sheet, lines - 2);
        sheet.extend(last);
    }
}
