//! Raw records: any call with any bytes. `record` has the format.

use super::{answer_numbers, join};
use crate::oracle::{answer_call, sizes, Answer, Door, LIMIT, MOST_STEPS};
use crate::plan::Node;
use crate::sheet::{line, read_line, write, write_line, Line, LINE};

/// What a call takes: the buffers by the words that are lent.
#[derive(Debug, Clone, PartialEq, Eq)]
pub struct Raw {
    pub door: Door,
    pub ceiling: u32,
    pub limit: u32,
    pub lengths: [usize; 3],
    pub sheet: Vec<u8>,
}

/// The words that `replay` has of board, book and report.
pub const MOST_WORDS: [usize; 3] = [12_288 + 16, 11_192 + 8, 4096 + 4];

/// Stands for a line that spells no triple.
const NO_LINE: Line = line(0, 0, 0);

impl Raw {
    /// Under document 01's limit, with buffers that are just long enough.
    pub fn usual(door: Door, sheet: Vec<u8>) -> Self {
        Raw {
            door,
            ceiling: MOST_STEPS,
            limit: LIMIT,
            lengths: sizes(LIMIT),
            sheet,
        }
    }

    pub fn answer(&self) -> Answer {
        answer_call(
            self.door,
            &self.sheet,
            self.ceiling,
            self.limit,
            self.lengths,
        )
    }
}

/// The record of a call and its answer.
pub fn encode(raw: &Raw, answer: &Answer) -> String {
    let (lines, edits) = lines_and_edits(&raw.sheet);
    let mut numbers = vec![call_number(raw.door), raw.ceiling as i64, raw.limit as i64];
    numbers.extend(raw.lengths.map(|length| length as i64));
    numbers.push(lines.len() as i64);
    numbers.extend(
        lines
            .iter()
            .flat_map(|line| [line.kind, line.value, line.count]),
    );
    numbers.extend([raw.sheet.len() as i64, edits.len() as i64]);
    let edits = edits.iter();
    numbers.extend(edits.flat_map(|(place, byte)| [*place as i64, *byte as i64]));
    format!("{} {}", join(numbers), answer_numbers(answer))
}

fn call_number(door: Door) -> i64 {
    match door {
        Door::First => 3,
        Door::Strict => 4,
    }
}

/// The whole lines as triples, and the bytes that these do not render.
fn lines_and_edits(sheet: &[u8]) -> (Vec<Line>, Vec<(usize, u8)>) {
    let whole = sheet.chunks_exact(LINE);
    let lines: Vec<Line> = whole
        .map(|bytes| spells(bytes).unwrap_or(NO_LINE))
        .collect();
    let rendered = rendered(&lines, sheet.len());
    let bytes = sheet.iter().zip(rendered).enumerate();
    let edits = bytes.filter(|(_, (byte, rendered))| **byte != *rendered);
    let edits = edits.map(|(place, (byte, _))| (place, *byte)).collect();
    (lines, edits)
}

fn spells(bytes: &[u8]) -> Option<Line> {
    let line = read_line(bytes)?;
    assert_eq!(write_line(line), bytes, "a number has one spelling");
    Some(line)
}

/// The lines as text, then zeros.
fn rendered(lines: &[Line], bytes: usize) -> Vec<u8> {
    let mut sheet = write(lines);
    sheet.resize(bytes, 0);
    sheet
}

/// A record's call and answer; `None` for what is no raw record.
pub fn decode(text: &str) -> Option<(Raw, Answer)> {
    let numbers: Option<Vec<i64>> = text.split(' ').map(|word| word.parse().ok()).collect();
    let mut reader = Reader(numbers?.into_iter());
    let read = (reader.raw()?, reader.answer()?);
    reader.0.next().is_none().then_some(read)
}

struct Reader(std::vec::IntoIter<i64>);

impl Reader {
    fn number<T: TryFrom<i64>>(&mut self) -> Option<T> {
        self.0.next()?.try_into().ok()
    }

    fn list<T>(&mut self, one: fn(&mut Self) -> Option<T>) -> Option<Vec<T>> {
        let count: usize = self.number()?;
        (0..count).map(|_| one(self)).collect()
    }

    fn raw(&mut self) -> Option<Raw> {
        let door = match self.number()? {
            3 => Door::First,
            4 => Door::Strict,
            _ => return None,
        };
        Some(Raw {
            door,
            ceiling: self.number()?,
            limit: self.number()?,
            lengths: [self.number()?, self.number()?, self.number()?],
            sheet: self.sheet()?,
        })
    }

    fn sheet(&mut self) -> Option<Vec<u8>> {
        let lines = self.list(|it| Some(line(it.number()?, it.number()?, it.number()?)))?;
        let mut sheet = rendered(&lines, self.number()?);
        for (place, byte) in self.list(|it| Some((it.number::<usize>()?, it.number()?)))? {
            *sheet.get_mut(place)? = byte;
        }
        Some(sheet)
    }

    fn nodes(&mut self) -> Option<Vec<Node>> {
        self.list(|it| Some((it.number()?, it.number()?)))
    }

    fn answer(&mut self) -> Option<Answer> {
        let mut answer = Answer {
            number: self.number()?,
            line: self.number()?,
            taken: self.number()?,
            fresh: self.number()?,
            details: (self.number()?, self.number()?),
            plain: self.number()?,
            report: self.nodes()?,
            solutions: self.list(|it| Some((it.number()?, it.nodes()?)))?,
            levels: Vec::new(),
        };
        answer.levels = (0..answer.fresh)
            .map(|_| self.number())
            .collect::<Option<_>>()?;
        Some(answer)
    }
}
