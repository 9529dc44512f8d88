//! What a call tells: the seven numbers, and their meaning.

use crate::types::{Name, Type};
use std::fmt;

/// What came out of a check.
///
/// The first of the seven numbers is named with each case.
#[derive(Debug, Clone, PartialEq, Eq)]
#[non_exhaustive]
pub enum Verdict {
    /// 0: every part of the plan fits.
    Accepted,
    /// 1: the ceiling is above [`MOST_STEPS`](crate::MOST_STEPS).
    CeilingTooHigh,
    /// 2: a buffer is shorter than a call takes.
    BufferTooShort,
    /// 3: the sheet has no byte, too many, or a part of a line.
    BadLength,
    /// 4: a line has a misspelt or blank field or no LF.
    Misspelt {
        /// The first such line, from 1.
        line: u32,
    },
    /// 5: a line can't continue a plan, or one is lacking.
    Unfit {
        /// The first such line, from 1; one more than the sheet has if a line
        /// is lacking.
        line: u32,
    },
    /// 11: a variable is bound nowhere.
    UnboundVariable {
        /// The variable.
        name: Name,
    },
    /// 12: there is no such data constructor.
    UnboundDataConstructor {
        /// The data constructor.
        name: Name,
    },
    /// 13: what is applied is no function.
    NotAFunction {
        /// The type of what is applied.
        ty: Type,
    },
    /// 14: a pattern has too few or too many parts.
    ArityMismatch {
        /// How many it should have.
        expected: u32,
        /// How many it has.
        actual: u32,
    },
    /// 15: a type doesn't fit another.
    SubtypingError {
        /// The type that doesn't fit.
        left: Type,
        /// The type that it should fit.
        right: Type,
    },
    /// 16: two types can't be made one.
    TypeUnificationError,
    /// 17: an unknown can't have a type as its solution.
    InstantiationError {
        /// The unknown.
        unknown: u32,
        /// The type.
        ty: Type,
    },
    /// 18: an intrinsic is called with too few or too many arguments.
    IntrinsicArityMismatch {
        /// How many it wants.
        expected: u32,
        /// How many it has.
        actual: u32,
    },
    /// 19: there is no such intrinsic.
    UnknownIntrinsic {
        /// The intrinsic.
        name: Name,
    },
    /// 21: an entry remains and the ceiling's number were taken.
    CeilingReached,
    /// 22: a push would pass 512 entries or 4,096 type nodes on the board.
    BoardFull,
    /// 23: a written-out type would have more nodes than the limit.
    WrittenOutTooLong,
    /// 24: the run wants a 1,001st fresh number.
    NumbersUsedUp,
    /// 25: the solutions would pass 4,096 nodes.
    BookFull,
    /// 32: the limit is 0 or above [`MOST_LIMIT`](crate::MOST_LIMIT).
    LimitOutOfRange,
    /// 39, by [`check_strict`](crate::check_strict) only: a solution has a fresh
    /// universal numbered above the level of the unknown to be solved.
    OutOfScope,
    /// A number, or a report, of another library than this crate is made for.
    Other {
        /// The first of the seven numbers.
        number: u32,
    },
}

impl Verdict {
    pub(crate) fn new(numbers: [u32; 7], report: &[u32]) -> Self {
        let [number, line, _, _, first, second, _] = numbers;
        Self::of_run(number, first, second, report).unwrap_or(match number {
            1 => Verdict::CeilingTooHigh,
            2 => Verdict::BufferTooShort,
            3 => Verdict::BadLength,
            4 => Verdict::Misspelt { line },
            5 => Verdict::Unfit { line },
            32 => Verdict::LimitOutOfRange,
            _ => Verdict::Other { number },
        })
    }

    /// `None` if no run ends with this number and such a report.
    fn of_run(number: u32, first: u32, second: u32, report: &[u32]) -> Option<Self> {
        Some(match number {
            0 => Verdict::Accepted,
            11 => Verdict::UnboundVariable { name: Name(first) },
            12 => Verdict::UnboundDataConstructor { name: Name(first) },
            13 => Verdict::NotAFunction {
                ty: reported(report, 0, first)?,
            },
            14 => Verdict::ArityMismatch {
                expected: first,
                actual: second,
            },
            15 => Verdict::SubtypingError {
                left: reported(report, 0, first)?,
                right: reported(report, first, second)?,
            },
            16 => Verdict::TypeUnificationError,
            17 => Verdict::InstantiationError {
                unknown: first,
                ty: reported(report, 0, second)?,
            },
            18 => Verdict::IntrinsicArityMismatch {
                expected: first,
                actual: second,
            },
            19 => Verdict::UnknownIntrinsic { name: Name(first) },
            21 => Verdict::CeilingReached,
            22 => Verdict::BoardFull,
            23 => Verdict::WrittenOutTooLong,
            24 => Verdict::NumbersUsedUp,
            25 => Verdict::BookFull,
            39 => Verdict::OutOfScope,
            _ => return None,
        })
    }
}

/// The type of so many nodes from a node of the report on.
fn reported(report: &[u32], from: u32, nodes: u32) -> Option<Type> {
    let start = (from as usize).checked_mul(2)?;
    let length = (nodes as usize).checked_mul(2)?;
    Type::from_words(report.get(start..)?.get(..length)?)
}

/// What a call tells.
///
/// Its `Display` is the seven numbers in columns of 6.
#[derive(Debug, Clone, PartialEq, Eq)]
pub struct Outcome {
    /// What came out, with its details and types.
    pub verdict: Verdict,
    /// The entries taken from the board, a refused last one included.
    pub taken: u32,
    /// The fresh numbers given, to unknowns and fresh universals.
    pub fresh: u32,
    /// True if none of these lines has kind 14 (Forall) or 25 (TypeLambda): the
    /// expected type's, the term's, and those of every entry whose name stands
    /// in the term on a line of kind 21, 26 or 43. Entries of both kinds count,
    /// hidden ones too. False if there was no run.
    pub plain: bool,
    numbers: [u32; 7],
}

impl Outcome {
    pub(crate) fn new(numbers: [u32; 7], report: &[u32]) -> Self {
        let [_, _, taken, fresh, _, _, plain] = numbers;
        Outcome {
            verdict: Verdict::new(numbers, report),
            taken,
            fresh,
            plain: plain != 0,
            numbers,
        }
    }

    /// The seven numbers: number, line, entries taken, fresh numbers, two
    /// details, plain mark.
    pub fn numbers(&self) -> [u32; 7] {
        self.numbers
    }

    /// True if every part of the plan fits.
    pub fn is_accepted(&self) -> bool {
        self.verdict == Verdict::Accepted
    }
}

impl fmt::Display for Outcome {
    fn fmt(&self, f: &mut fmt::Formatter) -> fmt::Result {
        self.numbers
            .iter()
            .try_for_each(|number| write!(f, "{number:6}"))
    }
}
