//! Plans made by the seed. Every generator gives lines and a ceiling.

pub mod catalogue;
pub mod compared;
mod directed;
pub mod grown;
pub mod hard;
pub mod limits;
mod open;
mod related;
pub mod scoped;
pub mod small;
mod splits;
pub mod types;
mod wild;

use crate::oracle::MOST_STEPS;
use crate::random::Random;
use crate::sheet::{line, Line};
use std::collections::BTreeMap;
pub use types::sized;
use types::Ty;

#[derive(Debug, Clone)]
pub struct Made {
    pub ceiling: u32,
    pub lines: Vec<Line>,
}

/// The plans that a seed gives: most are led by their types.
pub fn random(seed: u64, count: usize) -> impl Iterator<Item = Made> {
    let mut random = Random::new(seed);
    (0..count).map(move |_| {
        let lines = match random.below(100) {
            0..=87 => directed::plan(&mut random),
            _ => wild::plan(&mut random),
        };
        Made {
            ceiling: ceiling(&mut random),
            lines,
        }
    })
}

/// Mostly the highest one.
fn ceiling(random: &mut Random) -> u32 {
    match random.below(100) {
        0 | 1 => random.below(40) as u32,
        2 => random.below(200) as u32,
        _ => MOST_STEPS,
    }
}

/// The sheet's lines from its four parts.
pub fn sheet(
    constructors: &BTreeMap<u32, Ty>,
    context: &BTreeMap<u32, Ty>,
    expected: &Ty,
    term: &[Line],
) -> Vec<Line> {
    let mut lines = Vec::new();
    for (kind, entries) in [(1, constructors), (2, context)] {
        for (name, ty) in entries {
            lines.push(line(kind, *name as i64, 0));
            lines.extend(ty.lines());
        }
    }
    lines.push(line(3, 0, 0));
    lines.extend(expected.lines());
    lines.push(line(4, 0, 0));
    lines.extend(term);
    lines
}
