//! Plans with one line left open: what stands before it, and the parts that a
//! line of its kind must be followed by, so that its own fields decide.

use super::Sheet;
use crate::sheet::{line, write, Line};

pub struct Host {
    before: Vec<Line>,
    after: Vec<Line>,
}

const INT: Line = line(12, 1, 0);
const EXPECTED: Line = line(3, 0, 0);
const TERM: Line = line(4, 0, 0);
const SEVEN: Line = line(22, 7, 0);
const ANY: Line = line(41, 0, 0);
const CASE: Line = line(27, 0, 1);

impl Host {
    /// For a kind with so many parts, where their number is in its count; a kind
    /// that is not listed stands as the term.
    pub fn new(kind: i64, parts: usize) -> Self {
        let part = |line: Line| vec![line; parts];
        match kind {
            1 | 2 => host(&[], &[INT, EXPECTED, INT, TERM, SEVEN]),
            3 => host(&[], &[INT, TERM, SEVEN]),
            4 => host(&[EXPECTED, INT], &[SEVEN]),
            11 | 12 => expected(&[]),
            13 | 15 => expected(&[INT, INT]),
            14 => expected(&[INT]),
            16 => expected(&part(INT)),
            23 => term(&[INT, SEVEN]),
            24 | 28 => term(&[SEVEN, SEVEN]),
            25 => term(&[SEVEN]),
            26 | 30 => term(&part(SEVEN)),
            27 => term(&[vec![SEVEN], [ANY, SEVEN].repeat(parts)].concat()),
            29 => term(&[SEVEN, SEVEN, SEVEN]),
            41 | 42 => pattern(&[]),
            43 => pattern(&part(ANY)),
            _ => term(&[]),
        }
    }

    /// The sheet with a line in the open place.
    pub fn sheet(&self, bytes: &[u8]) -> Sheet {
        [write(&self.before), bytes.to_vec(), write(&self.after)].concat()
    }
}

fn host(before: &[Line], after: &[Line]) -> Host {
    Host {
        before: before.to_vec(),
        after: after.to_vec(),
    }
}

fn expected(parts: &[Line]) -> Host {
    host(&[EXPECTED], &[parts, &[TERM, SEVEN]].concat())
}

fn term(parts: &[Line]) -> Host {
    host(&[EXPECTED, INT, TERM], parts)
}

fn pattern(parts: &[Line]) -> Host {
    let before = [EXPECTED, INT, TERM, CASE, SEVEN];
    host(&before, &[parts, &[SEVEN]].concat())
}

/// A line by the texts of its fields, right-justified.
pub fn spelt(kind: &str, value: &str, count: &str) -> Vec<u8> {
    let text = format!("{kind:>3}{value:>20}{count:>5}\n");
    assert_eq!(text.len(), crate::sheet::LINE, "{text}");
    text.into_bytes()
}
