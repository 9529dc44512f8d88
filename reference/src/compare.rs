//! The proved checker beside the Rust in one process, on families of plans and
//! of calls.

use crate::checks::{put, Call, Put};
use crate::damage::damaged;
use crate::generate::limits::{self, Found};
use crate::generate::{catalogue, compared, grown, hard, random, scoped, small, Made};
use crate::oracle::{run_limited, sizes, under_limit, Door, LIMIT, MOST_LIMIT, MOST_STEPS};
use crate::proved::{proved, Check, Proved};
use crate::random::Random;
use crate::sheet::{read_plan, write, Line, MOST_LINES};
use crate::wall::{self, long_sheet};
use std::collections::BTreeMap;

const DOORS: [Door; 2] = [Door::First, Door::Strict];

struct Tally {
    check: Check,
    numbers: BTreeMap<(Door, u32), usize>,
    /// By the number that a search went to and the one that came.
    towards: BTreeMap<(u32, Door, u32), usize>,
    compared: usize,
    differences: usize,
}

impl Tally {
    fn new(check: Check) -> Self {
        Tally {
            check,
            numbers: BTreeMap::new(),
            towards: BTreeMap::new(),
            compared: 0,
            differences: 0,
        }
    }

    /// The number that comes.
    fn put(&mut self, call: &Call) -> u32 {
        let put = put(self.check, call, self.compared as u32);
        self.compared += 1;
        let key = (call.door, put.answer.number);
        *self.numbers.entry(key).or_default() += 1;
        if !put.same {
            self.differences += 1;
            self.show_difference(call, &put);
        }
        put.answer.number
    }

    /// Under document 01's limit and with buffers longer by a few words.
    fn put_usual(&mut self, door: Door, sheet: &[u8], ceiling: u32) {
        self.put(&Call {
            door,
            sheet,
            ceiling,
            limit: LIMIT,
            lengths: longer(LIMIT, self.compared),
        });
    }

    /// The same to the first call, and to the strict one too where it is told so.
    fn put_made(&mut self, made: &Made, strictly: bool) {
        let sheet = write(&made.lines);
        self.put_usual(Door::First, &sheet, made.ceiling);
        if strictly {
            self.put_usual(Door::Strict, &sheet, made.ceiling);
        }
    }

    fn put_limited(&mut self, door: Door, sheet: &[u8], ceiling: u32, limit: u32) -> u32 {
        self.put(&Call {
            door,
            sheet,
            ceiling,
            limit,
            lengths: longer(limit, self.compared),
        })
    }

    fn show_difference(&self, call: &Call, put: &Put) {
        const MOST_SHOWN: usize = 10;
        if self.differences <= MOST_SHOWN {
            let rust = put.answer.seven();
            println!("difference: the Rust {rust:?}, proved {:?}", put.seven);
            let Call {
                door,
                ceiling,
                limit,
                ..
            } = call;
            println!("{door:?} call, ceiling {ceiling}, limit {limit}");
            let sheet = call.sheet.escape_ascii().to_string();
            println!("{}", sheet.replace("\\n", "\n"));
        }
    }

    fn show(&self) {
        for ((door, number), count) in &self.numbers {
            println!("{door:?} call, number {number}: {count}");
        }
        for ((towards, door, number), count) in &self.towards {
            println!("towards {towards}, {door:?} call, number {number}: {count}");
        }
        println!("compared: {}", self.compared);
        println!("differences: {}", self.differences);
    }
}

/// Longer than needed by a few words, or just as long.
fn longer(limit: u32, at: usize) -> [usize; 3] {
    let [board, book, report] = sizes(limit);
    [board + at % 3, book + at % 5, report + at % 7]
}

/// One of the buffers too short, by a word or more.
fn shorter(limit: u32, at: usize) -> [usize; 3] {
    let mut lengths = sizes(limit);
    lengths[at % 3] -= 1 + at % lengths[at % 3];
    lengths
}

/// True if both give the same on random plans, on damaged sheets, on the plans
/// of the wall and the limits, on the hard sheets, on every small plan, with short
/// buffers and under limits that a caller picks, these too on plans whose
/// comparisons follow solutions, on plans over a catalogue, on plans about scope,
/// and on plans that are grown until they come to a limit.
pub fn compare(seed: u64, count: usize, damages: usize) -> bool {
    let Some(Proved { check, .. }) = proved() else {
        return false;
    };
    let mut tally = Tally::new(check);
    known(&mut tally);
    for (at, made) in random(seed, count).enumerate() {
        tally.put_made(&made, at % 5 == 0);
    }
    refused(&mut tally, seed, damages);
    picked(&mut tally, seed, count.div_ceil(10));
    followed(&mut tally, seed, count.div_ceil(5));
    marked(&mut tally, seed, count.div_ceil(5));
    in_scope(&mut tally, seed, count);
    at_limits(&mut tally, seed, count.div_ceil(28));
    tally.show();
    tally.differences == 0
}

/// The wall, the longest sheet, the limits, the hard sheets and the small plans.
fn known(tally: &mut Tally) {
    for door in DOORS {
        for plan in wall::plans() {
            tally.put_usual(door, &write(&plan.lines), plan.ceiling);
        }
        for lines in [MOST_LINES, MOST_LINES + 1] {
            tally.put_usual(door, &write(&long_sheet(lines)), MOST_STEPS);
        }
        let found = [limits::plans(), limits::picked(), hard::plans()];
        for Found { made, limit, .. } in found.concat() {
            tally.put_limited(door, &write(&made.lines), made.ceiling, limit);
        }
    }
    for (at, made) in small::plans().iter().enumerate() {
        tally.put_made(made, at % 5 == 0);
    }
}

/// Plans over a catalogue, whose plain mark hangs on the names in the term.
fn marked(tally: &mut Tally, seed: u64, count: usize) {
    let made = catalogue::plans().into_iter().map(|(_, made)| made);
    for (at, made) in made.chain(catalogue::random(seed + 6, count)).enumerate() {
        tally.put_made(&made, at % 5 == 0);
    }
}

/// Plans with quantifiers, to both calls; every tenth to the strict one under
/// another limit too.
fn in_scope(tally: &mut Tally, seed: u64, count: usize) {
    let mut numbers = Random::new(seed + 8);
    let made = scoped::plans().into_iter().map(|(_, made)| made);
    for (at, made) in made.chain(scoped::random(seed + 7, count)).enumerate() {
        tally.put_made(&made, true);
        if at % 10 == 0 {
            let limit = pick(&mut numbers);
            tally.put_limited(Door::Strict, &write(&made.lines), made.ceiling, limit);
        }
    }
}

/// Plans at one below to two above the size at which they come to a limit, from so
/// many searches for each.
fn at_limits(tally: &mut Tally, seed: u64, count: usize) {
    for grown in grown::random(seed + 9, count) {
        let Made { ceiling, lines } = &grown.made;
        let number = tally.put_limited(grown.door, &write(lines), *ceiling, grown.limit);
        let key = (grown.towards, grown.door, number);
        *tally.towards.entry(key).or_default() += 1;
    }
}

/// Limits that no caller may pick.
const BAD_LIMITS: [u32; 5] = [0, MOST_LIMIT + 1, 1 << 30, (1 << 30) + 1, u32::MAX];

/// Damaged sheets, every third to the strict call; with every tenth a call that
/// is refused for its ceiling, its limit or its buffers, for one of them or for
/// several.
fn refused(tally: &mut Tally, seed: u64, damages: usize) {
    let mut numbers = Random::new(seed);
    for (at, Made { lines, .. }) in random(seed + 1, damages).enumerate() {
        let (_, sheet) = damaged(&mut numbers, &lines);
        let door = DOORS[usize::from(at % 3 == 0)];
        tally.put_usual(door, &sheet, MOST_STEPS);
        if at % 10 != 0 {
            continue;
        }
        let over = MOST_STEPS + (at as u32 / 10) % 2;
        let limit = pick(&mut numbers);
        let bad = BAD_LIMITS[at / 10 % BAD_LIMITS.len()];
        for (ceiling, limit, lengths) in [
            (over, limit, shorter(limit, at)),
            (over, bad, shorter(LIMIT, at / 2)),
            (MOST_STEPS, bad, longer(LIMIT, at)),
        ] {
            tally.put(&Call {
                door,
                sheet: &sheet,
                ceiling,
                limit,
                lengths,
            });
        }
    }
}

/// A limit that a caller may pick, its ends among them.
fn pick(numbers: &mut Random) -> u32 {
    const OFTEN: [u32; 8] = [1, 2, 3, 4, 8, 64, LIMIT, MOST_LIMIT];
    match numbers.below(12) {
        at @ 0..=7 => OFTEN[at],
        8..=10 => 1 + numbers.below(40) as u32,
        _ => 1 + numbers.below(MOST_LIMIT as usize) as u32,
    }
}

/// Random plans under a limit picked, under one that the run meets exactly and
/// under one that it passes by one.
fn picked(tally: &mut Tally, seed: u64, count: usize) {
    let mut numbers = Random::new(seed + 2);
    for Made { ceiling, lines } in random(seed + 3, count) {
        let sheet = write(&lines);
        let most = most_written(&lines, ceiling);
        for limit in [pick(&mut numbers), most, most.saturating_sub(1)] {
            if limit > 0 {
                tally.put_limited(Door::First, &sheet, ceiling, limit);
            }
        }
    }
}

/// Comparisons that follow solutions on both sides: those made for it under low
/// limits and under those around what they write out, random ones under any limit.
fn followed(tally: &mut Tally, seed: u64, count: usize) {
    const LOW: u32 = 40;
    const AROUND: u32 = 4;
    for (_, Made { ceiling, lines }) in compared::plans() {
        let sheet = write(&lines);
        let most = most_written(&lines, ceiling);
        let low = 1..=LOW;
        let around = LOW.max(most.saturating_sub(AROUND)) + 1..=most + AROUND;
        for limit in low.chain(around).chain([LIMIT, MOST_LIMIT]) {
            tally.put_limited(Door::First, &sheet, ceiling, limit);
        }
    }
    let mut numbers = Random::new(seed + 4);
    for Made { ceiling, lines } in compared::random(seed + 5, count) {
        let sheet = write(&lines);
        let most = most_written(&lines, ceiling).min(MOST_LIMIT - 1) + 1;
        for below in [most, MOST_LIMIT] {
            let limit = 1 + numbers.below(below as usize) as u32;
            tally.put_limited(Door::First, &sheet, ceiling, limit);
        }
    }
}

/// The nodes of the largest type that a run under the highest limit writes out.
fn most_written(lines: &[Line], ceiling: u32) -> u32 {
    let plan = read_plan(lines).expect("a plan");
    let run = under_limit(MOST_LIMIT, || run_limited(Door::First, &plan, ceiling));
    run.peaks.written as u32
}
