//! The table: a row for each plan, printed as it is measured.

use crate::anchor::ANCHOR;
use crate::measure::Measured;
use crate::plans::Plan;
use reference::oracle::Answer;
use std::time::Duration;

pub struct Row {
    pub plan: Plan,
    pub answer: Answer,
    pub measured: Measured,
}

impl Row {
    /// How many times our time the Rust takes.
    pub fn ratio(&self) -> f64 {
        quotient(self.measured.rust.minimum, self.measured.ours.minimum)
    }

    /// How many times the floor we take.
    pub fn over_floor(&self) -> f64 {
        quotient(self.measured.ours.minimum, self.measured.floor.minimum)
    }

    /// How many times the anchor we take, where it was measured.
    fn over_anchor(&self) -> Option<f64> {
        let anchor = self.measured.anchor?;
        Some(quotient(self.measured.ours.minimum, anchor.minimum))
    }

    /// Our nanoseconds for a line.
    pub fn per_line(&self) -> f64 {
        self.nanoseconds(self.measured.ours.minimum)
    }

    fn nanoseconds(&self, time: Duration) -> f64 {
        time.as_nanos() as f64 / self.plan.lines.len() as f64
    }

    pub fn print(&self) {
        let Measured {
            rust,
            ours,
            floor,
            anchor,
        } = &self.measured;
        let anchor = anchor.map(|times| format!("{:.2?}", times.minimum));
        let over_anchor = self.over_anchor().map(|times| format!("{times:.1}"));
        println!(
            "{:24} {:5} {:5} {:6} {:6} {:6} {:>10.2?} {:>10.2?} {:>10.2?} {:>10.2?} {:9.1} {:9.0} {:9.0} {:>10.2?} {:7.1} {:>10} {:>7}",
            self.plan.title,
            self.plan.lines.len(),
            self.answer.plain,
            self.answer.number,
            self.answer.taken,
            self.answer.fresh,
            rust.minimum,
            rust.median,
            ours.minimum,
            ours.median,
            self.ratio(),
            self.nanoseconds(rust.minimum),
            self.per_line(),
            floor.minimum,
            self.over_floor(),
            anchor.unwrap_or_default(),
            over_anchor.unwrap_or_default(),
        );
    }
}

fn quotient(left: Duration, right: Duration) -> f64 {
    left.as_secs_f64() / right.as_secs_f64()
}

/// What is measured and how, then the names of the columns.
pub fn print_heads(total: Duration) {
    println!(
        "Rust: `check_type` alone, without making its inputs and freeing what it leaves; it has no limits.
Ours: the whole call, reading the sheet included; the strict call, which the Rust has not, for the plans called strict.
Floor: clearing the three buffers and reading the sheet once by a plain loop.
Anchor: the whole call of a plain checker in C without a proof, for plans without a Case{}.
The buffers are made dirty before every timed call, outside of the timed part.
Minimum and median of {total:?} of calls, one at least, by turns; the other columns are of the minimums.
From a millisecond up, what other processes had of the core is taken off.
Before it is timed, a plan is put to all: the seven numbers and every word of the buffers agree.
",
        match ANCHOR {
            Some(_) => "",
            None => " (left out: no C compiler)",
        }
    );
    println!(
        "{:24} {:>5} {:>5} {:>6} {:>6} {:>6} {:>21} {:>21} {:>9} {:>9} {:>9} {:>10} {:>7} {:>10} {:>7}",
        "", "", "", "", "", "", "Rust", "ours", "Rust /", "Rust", "ours", "", "ours /", "", "ours /",
    );
    println!(
        "{:24} {:>5} {:>5} {:>6} {:>6} {:>6} {:>10} {:>10} {:>10} {:>10} {:>9} {:>9} {:>9} {:>10} {:>7} {:>10} {:>7}",
        "plan",
        "lines",
        "plain",
        "number",
        "taken",
        "fresh",
        "minimum",
        "median",
        "minimum",
        "median",
        "ours",
        "ns/line",
        "ns/line",
        "floor",
        "floor",
        "anchor",
        "anchor",
    );
}
