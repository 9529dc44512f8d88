//! Plans with no regard to types: names from small pools, any shapes.

use super::types::{any, mono, Ty};
use crate::random::Random;
use crate::sheet::{line, Line};
use std::collections::BTreeMap;

/// Where entries and terms take their names from; the pools overlap.
const CONSTRUCTORS: (u32, u32) = (20, 22);
const VARIABLES: (u32, u32) = (21, 25);

pub fn plan(random: &mut Random) -> Vec<Line> {
    let constructors = entries(random, CONSTRUCTORS);
    let context = entries(random, VARIABLES);
    let expected = ty(random);
    let mut term = Vec::new();
    let size = 1 + random.below(14);
    add_term(random, size, &mut term);
    super::sheet(&constructors, &context, &expected, &term)
}

fn entries(random: &mut Random, pool: (u32, u32)) -> BTreeMap<u32, Ty> {
    let count = random.below(4);
    (0..count)
        .map(|_| (random.name(pool.0, pool.1), ty(random)))
        .collect()
}

fn ty(random: &mut Random) -> Ty {
    match random.below(3) {
        0 => mono(random, 2),
        1 => any(random, 2),
        _ => any(random, 4),
    }
}

/// A term of about so many lines.
pub fn add_term(random: &mut Random, size: usize, out: &mut Vec<Line>) {
    let variable = random.name(VARIABLES.0, VARIABLES.1) as i64;
    let constructor = random.name(CONSTRUCTORS.0, CONSTRUCTORS.1) as i64;
    let quantified = random.name(10, 12) as i64;
    let op = random.name(1, 6) as i64;
    let part = size.saturating_sub(1);
    if size < 2 {
        return out.push(match random.below(5) {
            0 | 1 => line(21, variable, 0),
            2 | 3 => line(22, random.below(1000) as i64 - 500, 0),
            _ => line(26, constructor, 0),
        });
    }
    match random.below(11) {
        0 | 1 => {
            out.push(line(23, variable, 0));
            out.extend(ty(random).lines());
            add_term(random, part, out);
        }
        2 | 3 => add_parts(random, line(24, 0, 0), 2, part, out),
        4 => add_parts(random, line(25, quantified, 0), 1, part, out),
        5 => {
            let args = random.below(3);
            add_parts(random, line(26, constructor, args as i64), args, part, out);
        }
        6 | 7 => add_case(random, part, out),
        8 => add_parts(random, line(28, op, 0), 2, part, out),
        9 => add_parts(random, line(29, 0, 0), 3, part, out),
        _ => {
            let args = *random.pick(&[0, 1, 1, 1, 1, 1, 2]);
            let name = *random.pick(&[4, 4, 4, 4, 4, 4, 4, 1, 20]);
            add_parts(random, line(30, name, args as i64), args, part, out);
        }
    }
}

fn add_parts(random: &mut Random, head: Line, parts: usize, size: usize, out: &mut Vec<Line>) {
    out.push(head);
    for _ in 0..parts {
        add_term(random, size / parts, out);
    }
}

fn add_case(random: &mut Random, size: usize, out: &mut Vec<Line>) {
    let arms = random.below(4);
    out.push(line(27, 0, arms as i64));
    add_term(random, size / (arms + 1), out);
    for _ in 0..arms {
        add_pattern(random, 2, out);
        add_term(random, size / (arms + 1), out);
    }
}

fn add_pattern(random: &mut Random, depth: usize, out: &mut Vec<Line>) {
    match random.below(5) {
        0 => out.push(line(41, 0, 0)),
        1 | 2 => out.push(line(42, random.name(VARIABLES.0, VARIABLES.1) as i64, 0)),
        _ => {
            let args = if depth == 0 { 0 } else { random.below(3) };
            let name = random.name(CONSTRUCTORS.0, CONSTRUCTORS.1);
            out.push(line(43, name as i64, args as i64));
            (0..args).for_each(|_| add_pattern(random, depth - 1, out));
        }
    }
}
