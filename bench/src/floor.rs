//! What no checker can leave out: clearing the three buffers and reading the
//! sheet once; and what no writer can: the digits.

use reference::proved::Buffers;
use reference::sheet::LINE;
use std::hint::black_box;

const LIT_INT: u64 = 22;

/// Clears the buffers and reads the sheet.
pub fn floor(sheet: &[u8], buffers: &mut Buffers) -> Option<[u64; 3]> {
    buffers.iter_mut().for_each(|buffer| buffer.fill(0));
    black_box(buffers);
    read(sheet)
}

/// Takes every line's kind, value without its sign, and count, and gives their
/// sums; nothing if one is misspelt.
pub fn read(sheet: &[u8]) -> Option<[u64; 3]> {
    let mut sums = [0u64; 3];
    for line in sheet.chunks_exact(LINE) {
        let kind = field(&line[..3], false)?;
        let value = field(&line[3..23], kind == LIT_INT)?;
        let count = field(&line[23..28], false)?;
        if line[28] != b'\n' {
            return None;
        }
        for (sum, number) in sums.iter_mut().zip([kind, value, count]) {
            *sum = sum.wrapping_add(number);
        }
    }
    Some(sums)
}

/// Spaces, a minus sign where it is allowed, then digits with no leading zero.
fn field(bytes: &[u8], minus: bool) -> Option<u64> {
    let mut at = 0;
    while at < bytes.len() && bytes[at] == b' ' {
        at += 1;
    }
    let signed = minus && at < bytes.len() && bytes[at] == b'-';
    at += signed as usize;
    let digits = &bytes[at..];
    // 19 digits fit, and 20 are out of range.
    if digits.is_empty() || digits.len() > 19 {
        return None;
    }
    let mut number = 0;
    for byte in digits {
        if !byte.is_ascii_digit() {
            return None;
        }
        number = 10 * number + (byte - b'0') as u64;
    }
    let zero = digits[0] == b'0' && (signed || digits.len() > 1);
    let most = i64::MAX as u64 + signed as u64;
    (!zero && number <= most).then_some(number)
}

/// Writes the lines of triples that have room in them, and looks at no grammar.
pub fn write(words: &[i64], out: &mut [u8]) {
    let lines = out.chunks_exact_mut(LINE);
    for (triple, line) in words.chunks_exact(3).zip(lines) {
        put(triple[0], &mut line[..3]);
        put(triple[1], &mut line[3..23]);
        put(triple[2], &mut line[23..28]);
        line[28] = b'\n';
    }
}

/// Spaces, then the number, up to the last byte of the field.
fn put(number: i64, field: &mut [u8]) {
    field.fill(b' ');
    let mut rest = number.unsigned_abs();
    let mut at = field.len() - 1;
    while rest > 9 {
        field[at] = b'0' + (rest % 10) as u8;
        rest /= 10;
        at -= 1;
    }
    field[at] = b'0' + rest as u8;
    if number < 0 {
        field[at - 1] = b'-';
    }
}

#[cfg(test)]
mod tests {
    use super::{read, LINE};
    use reference::damage::damaged;
    use reference::generate::random;
    use reference::random::Random;
    use reference::sheet::{line, read_lines, write, Line};
    use reference::writes::words_of;

    fn sums(lines: Vec<Line>) -> [u64; 3] {
        let sum = |part: fn(&Line) -> i64| {
            let numbers = lines.iter().map(|line| part(line).unsigned_abs());
            numbers.fold(0, u64::wrapping_add)
        };
        [
            sum(|line| line.kind),
            sum(|line| line.value),
            sum(|line| line.count),
        ]
    }

    #[test]
    fn reads_as_the_reference_does() {
        let mut numbers = Random::new(3);
        for made in random(3, 20_000) {
            let sheet = write(&made.lines);
            assert_eq!(read(&sheet), Some(sums(made.lines.clone())));
            let (title, sheet) = damaged(&mut numbers, &made.lines);
            match read_lines(&sheet) {
                Err(refusal) if refusal.number == 3 => {}
                lines => assert_eq!(read(&sheet), lines.ok().map(sums), "{title}"),
            }
        }
    }

    #[test]
    fn writes_as_the_reference_does() {
        let edges = [
            i64::MIN,
            i64::MAX,
            -10,
            -9,
            0,
            9,
            10,
            1_000_000_000_000_000_000,
        ];
        let literals = edges.map(|value| line(22, value, 0)).to_vec();
        let fullest = vec![line(999, 1, 99_999), line(0, 0, 10_000)];
        let made = random(4, 2000).map(|made| made.lines);
        for lines in made.chain([literals, fullest]) {
            let sheet = write(&lines);
            let mut out = vec![b'.'; LINE * lines.len()];
            super::write(&words_of(lines), &mut out);
            assert_eq!(out, sheet);
        }
    }
}
