//! Triples to sheets.

use crate::foreign;
use crate::{LINE_BYTES, SHEET_BYTES};
use std::fmt;

/// The most triples of a plan: a sheet has so many lines.
pub const MOST_TRIPLES: usize = SHEET_BYTES / LINE_BYTES;

/// What one line of a sheet says.
///
/// Any numbers can be held; [`write_sheet`] says which triples form a plan.
#[derive(Debug, Clone, Copy, PartialEq, Eq, Hash)]
#[repr(C)]
pub struct Triple {
    /// What the line is, by document 01's table.
    pub kind: i64,
    /// A name, an operator or the number of a literal; else 0.
    pub value: i64,
    /// How many parts follow, where the kind has no fixed number of them; else 0.
    pub count: i64,
}

impl Triple {
    /// Kind, value and count.
    pub const fn new(kind: i64, value: i64, count: i64) -> Self {
        Triple { kind, value, count }
    }
}

impl From<[i64; 3]> for Triple {
    fn from([kind, value, count]: [i64; 3]) -> Self {
        Triple { kind, value, count }
    }
}

/// Why triples were not written.
///
/// The first of the seven numbers is named with each case.
#[derive(Debug, Clone, Copy, PartialEq, Eq)]
#[non_exhaustive]
pub enum Unwritten {
    /// 3: there is no triple, or there are more than [`MOST_TRIPLES`].
    BadLength,
    /// 5: a triple can't continue a plan, or one is lacking.
    Unfit {
        /// The first such triple, from 1; one more than there are if one is lacking.
        triple: u32,
    },
    /// 31, by [`write_sheet_into`] only: the output is shorter than
    /// [`LINE_BYTES`] times the triples.
    OutputTooShort,
    /// A number of another library than this crate is made for.
    Other {
        /// The first of the seven numbers.
        number: u32,
    },
}

impl Unwritten {
    /// `None` if the sheet was written.
    fn new([number, line, ..]: [u32; 7]) -> Option<Self> {
        Some(match number {
            0 => return None,
            3 => Unwritten::BadLength,
            5 => Unwritten::Unfit { triple: line },
            31 => Unwritten::OutputTooShort,
            _ => Unwritten::Other { number },
        })
    }
}

impl fmt::Display for Unwritten {
    fn fmt(&self, f: &mut fmt::Formatter) -> fmt::Result {
        match self {
            Unwritten::BadLength => write!(f, "a plan has 1 to {MOST_TRIPLES} triples"),
            Unwritten::Unfit { triple } => {
                write!(f, "triple {triple} can't continue the plan, or is lacking")
            }
            Unwritten::OutputTooShort => write!(f, "the output is shorter than the sheet"),
            Unwritten::Other { number } => write!(f, "the library answers {number}"),
        }
    }
}

impl std::error::Error for Unwritten {}

/// The sheet of a plan that is held as triples, a line a triple.
///
/// The sheet reads as those triples, and no other sheet that holds a plan does. The
/// plan is not checked. A negative number but in the value of kind 22, and any number
/// that no line has room for, make a triple that can't continue a plan.
///
/// ```
/// use kirvoghus::{check, write_sheet, Buffers, Triple, Unwritten, MOST_STEPS};
///
/// // 7 as Int
/// let plan = [[3, 0, 0], [12, 1, 0], [4, 0, 0], [22, 7, 0]].map(Triple::from);
/// let sheet = write_sheet(&plan)?;
/// assert_eq!(sheet[29..58], *b" 12                   1    0\n");
/// assert!(check(&sheet, MOST_STEPS, &mut Buffers::new()).is_accepted());
///
/// // Its term is lacking.
/// assert_eq!(write_sheet(&plan[..3]), Err(Unwritten::Unfit { triple: 4 }));
/// # Ok::<(), Unwritten>(())
/// ```
pub fn write_sheet(triples: &[Triple]) -> Result<Vec<u8>, Unwritten> {
    // More triples are refused, however long the output is.
    let mut out = vec![0; LINE_BYTES * triples.len().min(MOST_TRIPLES)];
    write_sheet_into(triples, &mut out)?;
    Ok(out)
}

/// The same at the start of a lent slice, of which the sheet is returned.
///
/// The bytes after the sheet are kept, and all are where the triples are refused. A
/// slice that is too short is told after all else that is wrong.
pub fn write_sheet_into<'a>(triples: &[Triple], out: &'a mut [u8]) -> Result<&'a [u8], Unwritten> {
    match Unwritten::new(foreign::write_sheet(triples, out)) {
        None => Ok(&out[..LINE_BYTES * triples.len()]),
        Some(unwritten) => Err(unwritten),
    }
}
