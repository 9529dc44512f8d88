//! The answer to a plan, from the Rust run under the limits; wherever no limit
//! is met, the Rust as it is must give the same, step by step and as
//! `check_type`. The strict call must go as the first does, but for 39.

use crate::mark::is_plain;
use crate::plan::{name_number, nodes, unknown_number, Node, Plan};
use crate::sheet::{self, Line, Refusal};
use crate::stepwise::Stepwise;
pub use limited::Door;
use limited::{Limited, Passed, Peaks, Rule, Step};
use plain::core::CoreType;
use plain::errors::TypeError;
use plain::worklist::DKInference;
use std::collections::HashMap;

pub const MOST_STEPS: u32 = 10_000;

/// Document 01's limit on one written-out type, and the highest that a caller picks.
pub const LIMIT: u32 = limited::WRITTEN as u32;
pub const MOST_LIMIT: u32 = 4096;

/// The least lengths of board, book and report for a limit.
pub fn sizes(limit: u32) -> [usize; 3] {
    [12_288, 11_192, 4 * limit as usize]
}

/// `check_type` keeps a string of the whole term for each step; it is asked
/// only where term and run are no longer than this.
const CHECK_TYPE_LINES: usize = 300;
const CHECK_TYPE_STEPS: u32 = 3000;

/// The seven numbers, the report, the solutions in order of solving and the
/// levels of the numbers made.
#[derive(Debug, Clone, PartialEq, Eq, Default)]
pub struct Answer {
    pub number: u32,
    pub line: u32,
    pub taken: u32,
    pub fresh: u32,
    pub details: (u32, u32),
    pub plain: u32,
    pub report: Vec<Node>,
    pub solutions: Vec<Solution>,
    pub levels: Vec<u32>,
}

/// An unknown and the nodes that it was given.
pub type Solution = (u32, Vec<Node>);

impl Answer {
    pub fn refused(number: u32, line: u32) -> Self {
        Answer {
            number,
            line,
            ..Answer::default()
        }
    }

    pub fn seven(&self) -> [u32; 7] {
        let (first, second) = self.details;
        [
            self.number,
            self.line,
            self.taken,
            self.fresh,
            first,
            second,
            self.plain,
        ]
    }
}

/// An answer with what the search for limits needs beside it.
#[derive(Debug, Clone, Default)]
pub struct Run {
    pub answer: Answer,
    pub peaks: Peaks,
    pub passed: Option<Passed>,
    /// The unknown whose split the last judgment has begun.
    pub split: Option<u32>,
    /// The last judgment and the limited operations that it has done.
    pub last: (Rule, usize),
}

/// A whole call: 1, 32 and 2 before the sheet is looked at, then the Rust under the limit.
pub fn answer_call(
    door: Door,
    bytes: &[u8],
    ceiling: u32,
    limit: u32,
    lengths: [usize; 3],
) -> Answer {
    let refused = [
        (1, ceiling > MOST_STEPS),
        (32, !(1..=MOST_LIMIT).contains(&limit)),
        (
            2,
            lengths
                .iter()
                .zip(sizes(limit))
                .any(|(length, size)| *length < size),
        ),
    ];
    if let Some((number, _)) = refused.into_iter().find(|(_, refused)| *refused) {
        return Answer::refused(number, 0);
    }
    under_limit(limit, || answer_sheet(door, bytes, ceiling))
}

/// With another limit on written-out types.
pub fn under_limit<T>(limit: u32, run: impl FnOnce() -> T) -> T {
    let before = limited::set_written(limit as usize);
    let result = run();
    limited::set_written(before);
    result
}

pub fn answer_sheet(door: Door, bytes: &[u8], ceiling: u32) -> Answer {
    if ceiling > MOST_STEPS {
        return Answer::refused(1, 0);
    }
    match sheet::read(bytes) {
        Ok(plan) => answer_plan(door, &plan, ceiling).answer,
        Err(Refusal { number, line }) => Answer::refused(number, line),
    }
}

/// The same for a sheet given by its lines.
pub fn answer_lines(door: Door, lines: &[Line], ceiling: u32) -> Answer {
    answer_sheet(door, &sheet::write(lines), ceiling)
}

/// Panics where the two inclusions of the Rust differ, or the two calls in
/// anything but 39.
pub fn answer_plan(door: Door, plan: &Plan, ceiling: u32) -> Run {
    let run = run_limited(door, plan, ceiling);
    if door == Door::Strict {
        assert_strict(plan, ceiling, &run.answer);
    }
    match run.passed {
        Some(_) => assert_before(plan, &run.answer),
        None => assert_eq!(run_plain(plan, ceiling), run.answer, "{plan:?}"),
    }
    let ended = run.passed.is_none() && run.answer.number != 21;
    if ended && plan.term_lines <= CHECK_TYPE_LINES && run.answer.taken <= CHECK_TYPE_STEPS {
        assert_check_type(plan, &run.answer);
    }
    run
}

/// How a run ended, as number, details and report.
type End = (u32, (u32, u32), Vec<Node>);

fn end(number: u32) -> End {
    (number, (0, 0), Vec::new())
}

fn end_of_error(error: &TypeError) -> End {
    let len = |ty: &CoreType| nodes(ty).len() as u32;
    match error {
        TypeError::UnboundVariable { name, .. } => (11, (name_number(name), 0), Vec::new()),
        TypeError::UnboundDataConstructor { name, .. } => (12, (name_number(name), 0), Vec::new()),
        TypeError::NotAFunction { ty, .. } => (13, (len(ty), 0), nodes(ty)),
        TypeError::ArityMismatch {
            expected, actual, ..
        } => (14, (*expected as u32, *actual as u32), Vec::new()),
        TypeError::SubtypingError { left, right, .. } => {
            let report = [nodes(left), nodes(right)].concat();
            (15, (len(left), len(right)), report)
        }
        TypeError::TypeUnificationError { .. } => end(16),
        TypeError::InstantiationError { var, ty, .. } => {
            (17, (unknown_number(var), len(ty)), nodes(ty))
        }
        TypeError::IntrinsicArityMismatch {
            expected, actual, ..
        } => (18, (*expected as u32, *actual as u32), Vec::new()),
        TypeError::UnknownIntrinsic { name, .. } => (19, (name_number(name), 0), Vec::new()),
        TypeError::MissingTypeSignature { .. }
        | TypeError::NonExhaustiveMatch { .. }
        | TypeError::UnreachableMatchArm { .. } => unreachable!("not raised by worklist.rs"),
    }
}

/// The limited run alone.
pub fn run_limited(door: Door, plan: &Plan, ceiling: u32) -> Run {
    let mut rust = Limited::start(
        door,
        plan.constructors.iter().cloned(),
        plan.context.iter().cloned(),
        plan.term.clone(),
        plan.expected.clone(),
    );
    let mut taken = 0;
    let mut passed = None;
    let end = loop {
        if taken == ceiling && !rust.is_done() {
            break end(21);
        }
        let Some(step) = rust.step() else {
            break end(0);
        };
        taken += 1;
        match step {
            Step::Went => {}
            Step::Refused(error) => break end_of_error(&error),
            Step::Passed(limit) => {
                passed = Some(limit);
                break end(limit.number);
            }
        }
    };
    let solutions = rust.solutions();
    let solutions = solutions.map(|(name, ty)| (unknown_number(name), nodes(ty)));
    let levels = rust.levels().iter().map(|level| *level as u32);
    let answer = answer_of(plan, end, taken, solutions.collect(), levels.collect());
    Run {
        answer,
        peaks: rust.peaks(),
        passed,
        split: rust.split().map(|unknown| unknown as u32),
        last: rust.last(),
    }
}

fn answer_of(
    plan: &Plan,
    end: End,
    taken: u32,
    solutions: Vec<Solution>,
    levels: Vec<u32>,
) -> Answer {
    let (number, details, report) = end;
    Answer {
        number,
        line: 0,
        taken,
        fresh: levels.len() as u32,
        details,
        plain: is_plain(plan) as u32,
        report,
        solutions,
        levels,
    }
}

/// The Rust as it is, before its first entry.
pub fn inference(plan: &Plan) -> DKInference {
    let constructors: HashMap<_, _> = plan.constructors.iter().cloned().collect();
    let context: HashMap<_, _> = plan.context.iter().cloned().collect();
    DKInference::with_context(constructors, context)
}

fn run_plain(plan: &Plan, ceiling: u32) -> Answer {
    let mut run = Stepwise::start(plan);
    let end = loop {
        if run.taken == ceiling && !run.rust.is_done() {
            break end(21);
        }
        match run.step() {
            None => break end(0),
            Some(Ok(())) => {}
            Some(Err(error)) => break end_of_error(&error),
        }
    };
    answer_of(plan, end, run.taken, run.solutions, run.levels)
}

/// Up to the step that met a limit, the Rust as it is must have gone alike; no
/// step that is refused after its solution lowers a level.
fn assert_before(plan: &Plan, answer: &Answer) {
    let mut run = Stepwise::start(plan);
    for _ in 1..answer.taken {
        assert!(matches!(run.step(), Some(Ok(()))), "{plan:?}");
    }
    assert!(!run.rust.is_done(), "{plan:?}");
    assert!(answer.solutions.starts_with(&run.solutions), "{plan:?}");
    assert!(answer.levels.starts_with(&run.levels), "{plan:?}");
}

/// Where the strict call gives another answer, it is 39 at the step with the
/// first solution that is out of scope; until then it went alike.
fn assert_strict(plan: &Plan, ceiling: u32, strict: &Answer) {
    let first = |ceiling| run_limited(Door::First, plan, ceiling).answer;
    let in_scope = |solution| is_in_scope(solution, &strict.levels);
    assert!(strict.solutions.iter().all(in_scope), "{plan:?}");
    if strict.number != 39 {
        return assert_eq!(first(ceiling), *strict, "{plan:?}");
    }
    let (before, after) = (first(strict.taken - 1), first(strict.taken));
    assert_eq!(before.number, 21, "{plan:?}");
    assert_eq!(before.solutions, strict.solutions, "{plan:?}");
    assert!(strict.levels.starts_with(&before.levels), "{plan:?}");
    let refused = after.solutions.get(strict.solutions.len());
    let out_of_scope = refused.is_some_and(|it| !is_in_scope(it, &strict.levels));
    assert!(out_of_scope || after.number == 25, "{plan:?}");
}

/// By the levels at any later time: a solved unknown keeps its level.
fn is_in_scope((unknown, nodes): &Solution, levels: &[u32]) -> bool {
    let level = levels[*unknown as usize];
    !nodes
        .iter()
        .any(|(kind, number)| *kind == 18 && *number > level)
}

fn assert_check_type(plan: &Plan, answer: &Answer) {
    let mut rust = inference(plan);
    let end = match rust.check_type(&plan.term, &plan.expected) {
        Ok(()) => end(0),
        Err(error) => end_of_error(&error),
    };
    let same = (answer.number, answer.details, answer.report.clone());
    assert_eq!(end, same, "{plan:?}");
    assert_eq!(rust.fresh() as u32, answer.fresh, "{plan:?}");
    assert_eq!(rust.solved().len(), answer.solutions.len(), "{plan:?}");
}
