//! The recorded calls and answers.

use super::sheet;
use kirvoghus::{check_strict_with, check_with, Buffers, Outcome};
use std::path::Path;

/// Every record of the list.
pub fn recorded() -> Vec<Record> {
    let file = Path::new(env!("CARGO_MANIFEST_DIR")).join("../../reference/answers");
    let text = std::fs::read_to_string(file).expect("the recorded answers");
    let lines = text.lines().filter(|line| !line.starts_with('#'));
    lines.map(Record::new).collect()
}

/// The numbers of a line, whose format `reference/src/record.rs` tells.
pub struct Record(pub std::vec::IntoIter<i64>);

impl Record {
    fn new(line: &str) -> Self {
        let words = line.split_ascii_whitespace();
        let numbers: Vec<i64> = words.map(|w| w.parse().expect("a number")).collect();
        Record(numbers.into_iter())
    }

    pub fn one(&mut self) -> u32 {
        let number = self.0.next().expect("one more number");
        u32::try_from(number).expect("32 bits")
    }

    pub fn some(&mut self, count: u32) -> Vec<u32> {
        (0..count).map(|_| self.one()).collect()
    }

    fn lines(&mut self) -> Vec<u8> {
        let lines = self.one() as usize;
        let numbers: Vec<i64> = self.0.by_ref().take(3 * lines).collect();
        sheet(&numbers)
    }

    /// So many bytes, those past the lines 0, and then some of them changed.
    fn raw_sheet(&mut self) -> Vec<u8> {
        let mut bytes = self.lines();
        bytes.resize(self.one() as usize, 0);
        for _ in 0..self.one() {
            let place = self.one() as usize;
            bytes[place] = u8::try_from(self.one()).expect("a byte");
        }
        bytes
    }

    pub fn call(&mut self) -> Call {
        let number = self.one();
        let (ceiling, raw) = (self.one(), number > 2);
        let limit = if raw { self.one() } else { 1024 };
        let buffers = match raw {
            true => {
                let [board, book, report] = [(); 3].map(|()| self.one() as usize);
                Buffers::with_lengths(board, book, report)
            }
            false => Buffers::new(),
        };
        Call {
            strict: number % 2 == 0,
            ceiling,
            limit,
            buffers,
            sheet: if raw { self.raw_sheet() } else { self.lines() },
        }
    }
}

/// 1 and 3 are the first call, 2 and 4 the strict one; 3 and 4 have a limit and
/// buffers of their own, and any bytes.
pub struct Call {
    pub strict: bool,
    ceiling: u32,
    limit: u32,
    pub buffers: Buffers,
    pub sheet: Vec<u8>,
}

impl Call {
    pub fn put(&mut self) -> Outcome {
        let check = match self.strict {
            true => check_strict_with,
            false => check_with,
        };
        check(&self.sheet, self.ceiling, self.limit, &mut self.buffers)
    }
}
