//! The sheet: lines of 29 bytes to plan, with the refusals 3, 4 and 5, and
//! triples to bytes.

use crate::plan::{spell, Plan};
use plain::core::{CaseArm, CoreBinOp, CorePattern, CoreTerm, CoreType};

pub const LINE: usize = 29;
pub const MOST_LINES: usize = 2000;
const KIND: std::ops::Range<usize> = 0..3;
const VALUE: std::ops::Range<usize> = 3..23;
const COUNT: std::ops::Range<usize> = 23..28;
pub const LIT_INT: i64 = 22;

/// The kinds that document 01 lists.
pub const KINDS: [i64; 23] = [
    1, 2, 3, 4, 11, 12, 13, 14, 15, 16, 21, 22, 23, 24, 25, 26, 27, 28, 29, 30, 41, 42, 43,
];

/// One line: kind, value, count.
#[derive(Debug, Clone, Copy, PartialEq, Eq)]
pub struct Line {
    pub kind: i64,
    pub value: i64,
    pub count: i64,
}

pub const fn line(kind: i64, value: i64, count: i64) -> Line {
    Line { kind, value, count }
}

/// Number (3, 4 or 5) and line of a refused sheet.
#[derive(Debug, Clone, Copy, PartialEq, Eq)]
pub struct Refusal {
    pub number: u32,
    pub line: u32,
}

pub fn write(lines: &[Line]) -> Vec<u8> {
    lines.iter().flat_map(|line| write_line(*line)).collect()
}

pub fn write_line(line: Line) -> Vec<u8> {
    format!("{:3}{:20}{:5}\n", line.kind, line.value, line.count).into_bytes()
}

pub fn read(sheet: &[u8]) -> Result<Plan, Refusal> {
    read_plan(&read_lines(sheet)?)
}

/// The spelling alone: refusals 3 and 4.
pub fn read_lines(sheet: &[u8]) -> Result<Vec<Line>, Refusal> {
    if sheet.is_empty() || sheet.len() > MOST_LINES * LINE || sheet.len() % LINE != 0 {
        return Err(Refusal { number: 3, line: 0 });
    }
    let lines = sheet.chunks(LINE).enumerate();
    lines
        .map(|(at, bytes)| read_line(bytes).ok_or(refusal(4, at)))
        .collect()
}

/// A line of 29 bytes that spells three numbers.
pub fn read_line(bytes: &[u8]) -> Option<Line> {
    let kind = read_field(&bytes[KIND], false)?;
    let value = read_field(&bytes[VALUE], kind == LIT_INT)?;
    let count = read_field(&bytes[COUNT], false)?;
    (bytes[LINE - 1] == b'\n').then_some(Line { kind, value, count })
}

/// Spaces, then the one spelling of a number in signed 64 bits.
fn read_field(field: &[u8], minus: bool) -> Option<i64> {
    let start = field.iter().position(|byte| *byte != b' ')?;
    let spelling = std::str::from_utf8(&field[start..]).ok()?;
    let digits = spelling.strip_prefix('-').unwrap_or(spelling);
    let number: i64 = spelling.parse().ok()?;
    let one_way = number.to_string() == spelling;
    let signed = digits.len() < spelling.len();
    (one_way && (minus || !signed)).then_some(number)
}

/// The refusal at a line counted from 0.
fn refusal(number: u32, at: usize) -> Refusal {
    Refusal {
        number,
        line: at as u32 + 1,
    }
}

/// The grammar: refusal 5 at the first line that cannot continue a plan.
pub fn read_plan(lines: &[Line]) -> Result<Plan, Refusal> {
    let mut reader = Reader { lines, at: 0 };
    let constructors = reader.entries(1)?;
    let context = reader.entries(2)?;
    reader.heading(3)?;
    let expected = reader.ty()?;
    reader.heading(4)?;
    let first = reader.at;
    let term = reader.term()?;
    let term_lines = reader.at - first;
    if reader.at < lines.len() {
        return Err(refusal(5, reader.at));
    }
    Ok(Plan {
        constructors,
        context,
        expected,
        term,
        term_lines,
    })
}

struct Reader<'a> {
    lines: &'a [Line],
    at: usize,
}

type Read<T> = Result<T, Refusal>;

/// A name, as the Rust has it.
fn name(value: i64) -> Option<String> {
    (1..=9999).contains(&value).then(|| spell(value as u32))
}

fn count(value: i64) -> Option<usize> {
    (0..=99).contains(&value).then_some(value as usize)
}

fn operator(value: i64) -> Option<CoreBinOp> {
    Some(match value {
        1 => CoreBinOp::Add,
        2 => CoreBinOp::Sub,
        3 => CoreBinOp::Mul,
        4 => CoreBinOp::Div,
        5 => CoreBinOp::Lt,
        6 => CoreBinOp::Le,
        _ => return None,
    })
}

/// A line taken as the head of a type, a term or a pattern.
enum TypeHead {
    Var(String),
    Con(String),
    Arrow,
    Forall(String),
    App,
    Product(usize),
}

enum TermHead {
    Var(String),
    LitInt(i64),
    Lambda(String),
    App,
    TypeLambda(String),
    Constructor(String, usize),
    Case(usize),
    BinOp(CoreBinOp),
    If,
    IntrinsicCall(String, usize),
}

enum PatternHead {
    Wildcard,
    Var(String),
    Constructor(String, usize),
}

fn type_head(line: Line) -> Option<TypeHead> {
    Some(match (line.kind, line.value, line.count) {
        (11, value, 0) => TypeHead::Var(name(value)?),
        (12, value, 0) => TypeHead::Con(name(value)?),
        (13, 0, 0) => TypeHead::Arrow,
        (14, value, 0) => TypeHead::Forall(name(value)?),
        (15, 0, 0) => TypeHead::App,
        (16, 0, parts) => TypeHead::Product(count(parts)?),
        _ => return None,
    })
}

fn term_head(line: Line) -> Option<TermHead> {
    Some(match (line.kind, line.value, line.count) {
        (21, value, 0) => TermHead::Var(name(value)?),
        (LIT_INT, value, 0) => TermHead::LitInt(value),
        (23, value, 0) => TermHead::Lambda(name(value)?),
        (24, 0, 0) => TermHead::App,
        (25, value, 0) => TermHead::TypeLambda(name(value)?),
        (26, value, args) => TermHead::Constructor(name(value)?, count(args)?),
        (27, 0, arms) => TermHead::Case(count(arms)?),
        (28, value, 0) => TermHead::BinOp(operator(value)?),
        (29, 0, 0) => TermHead::If,
        (30, value, args) => TermHead::IntrinsicCall(name(value)?, count(args)?),
        _ => return None,
    })
}

fn pattern_head(line: Line) -> Option<PatternHead> {
    Some(match (line.kind, line.value, line.count) {
        (41, 0, 0) => PatternHead::Wildcard,
        (42, value, 0) => PatternHead::Var(name(value)?),
        (43, value, args) => PatternHead::Constructor(name(value)?, count(args)?),
        _ => return None,
    })
}

/// Whether value and count are in range for the kind, wherever the line stands.
pub fn in_range(line: Line) -> bool {
    match line.kind {
        1 | 2 => name(line.value).is_some() && line.count == 0,
        3 | 4 => (line.value, line.count) == (0, 0),
        _ => type_head(line).is_some() || term_head(line).is_some() || pattern_head(line).is_some(),
    }
}

impl Reader<'_> {
    /// The next line, if it can be read as what is due here.
    fn take<T>(&mut self, head: impl Fn(Line) -> Option<T>) -> Read<T> {
        let found = self.lines.get(self.at).and_then(|line| head(*line));
        let found = found.ok_or(refusal(5, self.at))?;
        self.at += 1;
        Ok(found)
    }

    fn heading(&mut self, kind: i64) -> Read<()> {
        self.take(|found| (found == line(kind, 0, 0)).then_some(()))
    }

    /// The entries of kind 1 or 2: names that rise strictly, each with a type.
    fn entries(&mut self, kind: i64) -> Read<Vec<(String, CoreType)>> {
        let mut entries = Vec::new();
        let mut last = 0;
        while self
            .lines
            .get(self.at)
            .is_some_and(|line| line.kind == kind)
        {
            let due = |line: Line| (line.count == 0 && line.value > last).then_some(line.value);
            let (key, spelt) =
                self.take(|line| due(line).and_then(|key| Some((key, name(key)?))))?;
            last = key;
            entries.push((spelt, self.ty()?));
        }
        Ok(entries)
    }

    fn ty(&mut self) -> Read<CoreType> {
        Ok(match self.take(type_head)? {
            TypeHead::Var(name) => CoreType::Var(name),
            TypeHead::Con(name) => CoreType::Con(name),
            TypeHead::Arrow => CoreType::Arrow(Box::new(self.ty()?), Box::new(self.ty()?)),
            TypeHead::Forall(name) => CoreType::Forall(name, Box::new(self.ty()?)),
            TypeHead::App => CoreType::App(Box::new(self.ty()?), Box::new(self.ty()?)),
            TypeHead::Product(parts) => CoreType::Product(self.list(parts, Self::ty)?),
        })
    }

    fn term(&mut self) -> Read<CoreTerm> {
        Ok(match self.take(term_head)? {
            TermHead::Var(name) => CoreTerm::Var(name),
            TermHead::LitInt(value) => CoreTerm::LitInt(value),
            TermHead::Lambda(param) => CoreTerm::Lambda {
                param,
                param_ty: self.ty()?,
                body: self.boxed()?,
            },
            TermHead::App => CoreTerm::App {
                func: self.boxed()?,
                arg: self.boxed()?,
            },
            TermHead::TypeLambda(param) => CoreTerm::TypeLambda {
                param,
                body: self.boxed()?,
            },
            TermHead::Constructor(name, args) => CoreTerm::Constructor {
                name,
                args: self.list(args, Self::term)?,
            },
            TermHead::Case(arms) => CoreTerm::Case {
                scrutinee: self.boxed()?,
                arms: self.list(arms, Self::arm)?,
            },
            TermHead::BinOp(op) => CoreTerm::BinOp {
                op,
                left: self.boxed()?,
                right: self.boxed()?,
            },
            TermHead::If => CoreTerm::If {
                cond: self.boxed()?,
                then_branch: self.boxed()?,
                else_branch: self.boxed()?,
            },
            TermHead::IntrinsicCall(name, args) => CoreTerm::IntrinsicCall {
                name,
                args: self.list(args, Self::term)?,
            },
        })
    }

    fn boxed(&mut self) -> Read<Box<CoreTerm>> {
        Ok(Box::new(self.term()?))
    }

    fn arm(&mut self) -> Read<CaseArm> {
        Ok(CaseArm {
            pattern: self.pattern()?,
            body: self.term()?,
        })
    }

    fn pattern(&mut self) -> Read<CorePattern> {
        Ok(match self.take(pattern_head)? {
            PatternHead::Wildcard => CorePattern::Wildcard,
            PatternHead::Var(name) => CorePattern::Var(name),
            PatternHead::Constructor(name, args) => CorePattern::Constructor {
                name,
                args: self.list(args, Self::pattern)?,
            },
        })
    }

    fn list<T>(&mut self, count: usize, one: fn(&mut Self) -> Read<T>) -> Read<Vec<T>> {
        (0..count).map(|_| one(self)).collect()
    }
}
