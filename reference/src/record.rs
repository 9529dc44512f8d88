//! Plans with their answers as lines of decimal numbers: call (1 the first, 2 the
//! strict one), ceiling, line count, the lines by threes; then the answer: the
//! seven numbers; the count of report nodes and the nodes; the count of solutions
//! and, for each, unknown, node count and nodes; the levels, as many as the fourth
//! of the seven says. The limit is document 01's, and each buffer is some words
//! longer than it has to be.
//!
//! A raw record, of any call with any bytes: call (3 the first, 4 the strict one),
//! ceiling, limit, the words lent of board, book and report, line count, the lines
//! by threes, the sheet's length in bytes, the count of edits and, for each, place
//! (from 0) and byte; then the answer. The sheet is the lines as text, zeros up to
//! its length, and then the edits. A line that spells no triple is 0 0 0 with edits.
//! A line that begins with # says what follows it.

pub mod raw;

use crate::damage::damaged_lines;
use crate::edges;
use crate::generate::{limits, random, scoped, small, Made};
use crate::oracle::{answer_lines, Answer, Door, MOST_STEPS};
use crate::plan::Node;
use crate::random::Random;
use crate::sheet::{line, write, Line};
use crate::wall;

const SEED: u64 = 1;
const RANDOM: usize = 2050;
const SMALL: usize = 1000;
const CEILINGS: usize = 120;
const REFUSED: usize = 120;
const SCOPED: usize = 200;
/// The most lines of a plan that was made to be out of scope or amid a split.
const SCOPED_LINES: usize = 300;

pub fn plan_line(door: Door, made: &Made) -> String {
    let call = match door {
        Door::First => 1,
        Door::Strict => 2,
    };
    let mut numbers = vec![call, made.ceiling as i64, made.lines.len() as i64];
    let lines = made.lines.iter();
    numbers.extend(lines.flat_map(|line| [line.kind, line.value, line.count]));
    join(numbers)
}

pub fn answered_line(door: Door, made: &Made) -> String {
    let answer = answer_lines(door, &made.lines, made.ceiling);
    format!("{} {}", plan_line(door, made), answer_numbers(&answer))
}

/// The sheet of a record, plain or raw; `None` for what is no record.
pub fn sheet_of(text: &str) -> Option<Vec<u8>> {
    if text.starts_with("3 ") || text.starts_with("4 ") {
        return raw::decode(text).map(|(raw, _)| raw.sheet);
    }
    let numbers: Option<Vec<i64>> = text.split(' ').map(|word| word.parse().ok()).collect();
    let numbers = numbers?;
    let [1 | 2, _ceiling, count, rest @ ..] = &numbers[..] else {
        return None;
    };
    let words = usize::try_from(*count).ok()?.checked_mul(3)?;
    let lines = rest.get(..words)?;
    let lines: Vec<Line> = lines.chunks(3).map(|n| line(n[0], n[1], n[2])).collect();
    Some(write(&lines))
}

fn answer_numbers(answer: &Answer) -> String {
    let mut numbers = answer.seven().to_vec();
    numbers.push(answer.report.len() as u32);
    add_nodes(&answer.report, &mut numbers);
    numbers.push(answer.solutions.len() as u32);
    for (unknown, nodes) in &answer.solutions {
        numbers.extend([*unknown, nodes.len() as u32]);
        add_nodes(nodes, &mut numbers);
    }
    numbers.extend(&answer.levels);
    join(numbers)
}

fn add_nodes(nodes: &[Node], numbers: &mut Vec<u32>) {
    numbers.extend(nodes.iter().flat_map(|(kind, value)| [*kind, *value]));
}

fn join<T: ToString>(numbers: Vec<T>) -> String {
    let spelt: Vec<String> = numbers.iter().map(T::to_string).collect();
    spelt.join(" ")
}

/// The whole list. No order of a `HashMap` goes into it.
pub fn list() -> String {
    let mut text = String::from(
        "# Plans and the answers of the Rust module, one a line; the format is in src/record.rs.\n\
         # Made by: reference record --out answers\n",
    );
    let first = [
        from_wall(),
        by_seed(),
        spread(),
        at_limits(),
        ceilings(),
        refused(),
    ];
    let first = first.concat().into_iter().map(|made| (Door::First, made));
    let both = in_scope()
        .into_iter()
        .flat_map(|made| [(Door::First, made.clone()), (Door::Strict, made)]);
    for (door, made) in first.chain(both) {
        text += &answered_line(door, &made);
        text.push('\n');
    }
    text + &raw_list()
}

/// The raw records, each family below its title.
fn raw_list() -> String {
    let mut text = String::new();
    for (title, calls) in edges::families() {
        text += &format!("# Raw: {title}.\n");
        for call in calls {
            text += &raw::encode(&call, &call.answer());
            text.push('\n');
        }
    }
    text
}

/// Without the sheet that has a minus sign where none may be.
fn from_wall() -> Vec<Made> {
    let plans = wall::plans().into_iter();
    let spelt = plans.filter(|wall| wall.said.number != 4);
    spelt
        .map(|wall| Made {
            ceiling: wall.ceiling,
            lines: wall.lines,
        })
        .collect()
}

fn by_seed() -> Vec<Made> {
    random(SEED, RANDOM).collect()
}

fn spread() -> Vec<Made> {
    let all = small::plans();
    let at = |index: usize| all[index * all.len() / SMALL].clone();
    (0..SMALL).map(at).collect()
}

fn at_limits() -> Vec<Made> {
    limits::plans()
        .into_iter()
        .map(|found| found.made)
        .collect()
}

/// Other plans with a ceiling at, just below or well below what they take.
fn ceilings() -> Vec<Made> {
    let plans = random(SEED + 1, CEILINGS).enumerate();
    plans
        .map(|(at, made)| {
            let taken = answer_lines(Door::First, &made.lines, MOST_STEPS).taken;
            let ceiling = [taken, taken - 1, taken / 2][at % 3];
            Made { ceiling, ..made }
        })
        .collect()
}

/// Well-spelt sheets that are mostly no plan.
fn refused() -> Vec<Made> {
    let mut numbers = Random::new(SEED + 2);
    let plans = random(SEED + 2, REFUSED).map(|made| Made {
        ceiling: MOST_STEPS,
        lines: damaged_lines(&mut numbers, &made.lines),
    });
    plans.collect()
}

/// Those made for it and random ones, of which one in three is out of scope.
fn in_scope() -> Vec<Made> {
    let made = scoped::plans().into_iter().map(|(_, made)| made);
    let made = made.filter(|made| made.lines.len() <= SCOPED_LINES);
    let is_out = |made: &Made| answer_lines(Door::Strict, &made.lines, made.ceiling).number == 39;
    let (mut out, mut others) = (SCOPED / 3, SCOPED - SCOPED / 3);
    let random = scoped::random(SEED + 3, usize::MAX).filter(|made| {
        let left = if is_out(made) { &mut out } else { &mut others };
        let taken = *left > 0;
        *left -= usize::from(taken);
        taken
    });
    made.chain(random.take(SCOPED)).collect()
}
