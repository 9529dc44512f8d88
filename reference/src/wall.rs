//! "Plans on the wall" of document 01, and the plan that tells which way
//! `instantiate_right` turns an Arrow's argument.

use crate::generate::sized;
use crate::oracle::{answer_lines, answer_sheet, Answer, Door, MOST_STEPS};
use crate::plan::Node;
use crate::sheet::{line, write, Line};

/// What document 01 says of a plan; `None` where it is silent.
#[derive(Default)]
pub struct Said {
    pub number: u32,
    pub line: u32,
    pub taken: u32,
    pub fresh: u32,
    pub details: Option<(u32, u32)>,
    pub report: Option<Vec<Node>>,
    pub solutions: Option<Vec<(u32, Vec<Node>)>>,
}

pub struct WallPlan {
    pub title: &'static str,
    pub ceiling: u32,
    pub lines: Vec<Line>,
    pub said: Said,
}

fn said(number: u32, taken: u32, fresh: u32) -> Said {
    Said {
        number,
        taken,
        fresh,
        ..Said::default()
    }
}

fn refused(number: u32, line: u32) -> Said {
    Said {
        line,
        ..said(number, 0, 0)
    }
}

/// A plan from kind, value, count by threes.
fn plan(title: &'static str, numbers: &[i64], said: Said) -> WallPlan {
    let lines = numbers.chunks(3).map(|n| line(n[0], n[1], n[2]));
    WallPlan {
        title,
        ceiling: MOST_STEPS,
        lines: lines.collect(),
        said,
    }
}

const SEVEN_AS_INT: [i64; 12] = [3, 0, 0, 12, 1, 0, 4, 0, 0, 22, 7, 0];

fn seven_as_int(title: &'static str, ceiling: u32, said: Said) -> WallPlan {
    WallPlan {
        ceiling,
        ..plan(title, &SEVEN_AS_INT, said)
    }
}

fn int_book() -> Option<Vec<(u32, Vec<Node>)>> {
    Some(vec![(0, vec![(12, 1)])])
}

pub fn plans() -> Vec<WallPlan> {
    [ceilings(), refusals(), accepted(), sheets()]
        .into_iter()
        .flatten()
        .collect()
}

fn ceilings() -> Vec<WallPlan> {
    let book = |said: Said| Said {
        solutions: int_book(),
        ..said
    };
    vec![
        seven_as_int("7 as Int", MOST_STEPS, book(said(0, 5, 1))),
        seven_as_int("7 as Int, ceiling 4", 4, book(said(21, 4, 1))),
        seven_as_int("7 as Int, ceiling 5", 5, book(said(0, 5, 1))),
        seven_as_int("7 as Int, ceiling 0", 0, said(21, 0, 0)),
        seven_as_int("ceiling 10,001", MOST_STEPS + 1, said(1, 0, 0)),
    ]
}

#[rustfmt::skip]
fn refusals() -> Vec<WallPlan> {
    vec![
        plan("7 as Bool", &[3,0,0, 12,2,0, 4,0,0, 22,7,0],
            Said { details: Some((1, 1)), report: Some(vec![(12, 1), (12, 2)]), ..said(15, 4, 1) }),
        plan("n10 bound nowhere", &[3,0,0, 12,1,0, 4,0,0, 21,10,0],
            Said { details: Some((10, 0)), ..said(11, 2, 1) }),
        plan("printInt with no argument", &[3,0,0, 12,3,0, 4,0,0, 30,4,0],
            Said { details: Some((1, 0)), ..said(18, 2, 1) }),
        plan("7 as Forall n10 over n10", &[3,0,0, 14,10,0, 11,10,0, 4,0,0, 22,7,0],
            Said { details: Some((1, 1)), report: Some(vec![(12, 1), (18, 0)]), ..said(15, 5, 2) }),
        plan("7 applied to 7", &[3,0,0, 12,1,0, 4,0,0, 24,0,0, 22,7,0, 22,7,0],
            Said { report: Some(vec![(12, 1)]), ..said(13, 5, 2) }),
        plan("Product of a quantified part",
            &[2,10,0, 16,0,1, 14,11,0, 11,11,0, 3,0,0, 12,1,0, 4,0,0, 21,10,0],
            Said { details: Some((0, 3)), ..said(17, 3, 1) }),
        plan("instantiate_right's direction, as the Rust has it",
            &[2,40,0, 13,0,0, 14,10,0, 13,0,0, 11,10,0, 11,10,0, 12,1,0,
              3,0,0, 12,3,0, 4,0,0, 21,40,0],
            said(15, 14, 6)),
    ]
}

#[rustfmt::skip]
fn accepted() -> Vec<WallPlan> {
    vec![
        plan("Lambda as Arrow Int Int",
            &[3,0,0, 13,0,0, 12,1,0, 12,1,0, 4,0,0, 23,10,0, 12,1,0, 21,10,0],
            said(0, 8, 1)),
        plan("Constructor with an unbound argument",
            &[1,20,0, 12,30,0, 3,0,0, 12,30,0, 4,0,0, 26,20,1, 21,99,0],
            said(0, 5, 1)),
        plan("Case, last arm sees the first one's variable",
            &[3,0,0, 12,1,0, 4,0,0, 27,0,2, 22,7,0, 42,10,0, 22,1,0, 41,0,0, 21,10,0],
            said(0, 21, 5)),
    ]
}

#[rustfmt::skip]
fn sheets() -> Vec<WallPlan> {
    vec![
        plan("kind 11 name of 0", &[3,0,0, 11,0,0, 4,0,0, 22,7,0], refused(5, 2)),
        plan("kind 11 name of -1", &[3,0,0, 11,-1,0, 4,0,0, 22,7,0], refused(4, 2)),
    ]
}

/// A good sheet of so many lines: 7 as a Product of Products.
pub fn long_sheet(count: usize) -> Vec<Line> {
    let ty = sized(count - 3).lines();
    [vec![line(3, 0, 0)], ty, vec![line(4, 0, 0), line(22, 7, 0)]].concat()
}

/// What differs from document 01, in words; empty where nothing does.
pub fn difference(wall: &WallPlan, answer: &Answer) -> String {
    let said = &wall.said;
    let expected = [said.number, said.line, said.taken, said.fresh];
    let mut different = String::new();
    if expected != answer.seven()[..4] {
        different += &format!(" said {expected:?}");
    }
    if said
        .details
        .is_some_and(|details| details != answer.details)
    {
        different += &format!(" details {:?}", said.details);
    }
    if said
        .report
        .as_ref()
        .is_some_and(|report| *report != answer.report)
    {
        different += &format!(" report {:?}", said.report);
    }
    if said
        .solutions
        .as_ref()
        .is_some_and(|book| *book != answer.solutions)
    {
        different += &format!(" solutions {:?}", said.solutions);
    }
    different
}

/// Prints a line for each plan; true if all are as document 01 says.
pub fn check() -> bool {
    let mut good = true;
    for wall in plans() {
        let answer = answer_lines(Door::First, &wall.lines, wall.ceiling);
        let different = difference(&wall, &answer);
        let mark = if different.is_empty() {
            "ok"
        } else {
            "DIFFERENT"
        };
        println!("{mark:9} {:?} {}{different}", answer.seven(), wall.title);
        good &= different.is_empty();
    }
    for (count, expected) in [(2000, false), (2001, true)] {
        let answer = answer_sheet(Door::First, &write(&long_sheet(count)), MOST_STEPS);
        let mark = if (answer.number == 3) == expected {
            "ok"
        } else {
            "DIFFERENT"
        };
        println!("{mark:9} {:?} {count} lines", answer.seven());
        good &= mark == "ok";
    }
    good
}
