//! Whether the targets are met. One that is not is no error.

use crate::families::Family;
use crate::plans::{families, SIZES};
use crate::table::Row;
use reference::oracle::Door;
use std::time::Duration;

/// Plans that are to take so many floors at most.
const FLOORS: [(&str, f64); 7] = [
    ("7 : Int", 1.6),
    ("Constructor 2000", 1.5),
    ("long type 2000", 1.8),
    ("sum, left 2000", 7.5),
    ("sum, right 2000", 7.5),
    ("sum, flat 2000", 7.5),
    ("1,000 fresh numbers", 14.0),
];

/// Plans that are to be so many times faster than the Rust.
const TIMES: [(&str, f64); 4] = [
    ("Lambdas 200", 45.0),
    ("Lambdas 2000", 400.0),
    ("sum, left 2000", 120.0),
    ("10,000 entries taken", 35.0),
];

/// The same for every plan of the shortest size: with fewer entries than these
/// taken, and with more.
const SHORTEST: (u32, f64, f64) = (10, 1.0, 2.0);

/// Hard sheets: how many times the Rust's time and how many floors at most.
const HARD: (f64, f64) = (1.5, 1200.0);

/// As many hard sheets in a row as a shop's set has plans, and their time at most.
pub const ROW: usize = 16;
const ROW_TIME: Duration = Duration::from_millis(500);

/// Our time for a line is to be flat between these sizes: how much higher it may
/// be at the longer one, by family.
const FLAT: (usize, usize) = (SIZES[1], SIZES[2]);
const RISES: [(&str, f64); 1] = [("Foralls", 2.0)];
const RISE: f64 = 1.5;

pub fn print(rows: &[Row]) {
    println!("\nTargets of plans: our time in floors or in the Rust's, at most; times faster, at least.\n");
    println!("{:24} {:12} {:>8} {:>8}", "plan", "", "wanted", "is");
    rows.iter().for_each(print_targets);
    let (short, long) = FLAT;
    println!("\nTarget: nanoseconds per line at {long} lines against those at {short}, at most.\n");
    println!(
        "{:24} {short:>8} {long:>8} {:>8} {:>8}",
        "family", "wanted", "is"
    );
    families().for_each(|family| print_flat(rows, family));
}

fn print_targets(row: &Row) {
    let (floors, times) = (row.over_floor(), row.ratio());
    if row.plan.hard {
        let (most_rusts, most_floors) = HARD;
        print_most(row, "Rust's time", most_rusts, 1.0 / times);
        print_most(row, "floors", most_floors, floors);
    }
    if let Some(most) = listed(&FLOORS, &row.plan.title) {
        print_most(row, "floors", most, floors);
    }
    if let Some(least) = times_wanted(row) {
        print_target(row, "faster", least, times, times >= least);
    }
}

fn print_most(row: &Row, what: &str, most: f64, is: f64) {
    print_target(row, what, most, is, is <= most);
}

fn print_target(row: &Row, what: &str, wanted: f64, is: f64, is_met: bool) {
    let (title, verdict) = (&row.plan.title, met(is_met));
    println!("{title:24} {what:12} {wanted:8.2} {is:8.2}  {verdict}");
}

fn times_wanted(row: &Row) -> Option<f64> {
    let (few, with_few, with_more) = SHORTEST;
    let shortest = row.plan.of.is_some_and(|(_, size)| size == SIZES[0]);
    match row.plan.door {
        // The Rust has no strict call.
        Door::Strict => None,
        Door::First if shortest && row.answer.taken < few => Some(with_few),
        Door::First if shortest => Some(with_more),
        Door::First => listed(&TIMES, &row.plan.title),
    }
}

fn listed(list: &[(&str, f64)], title: &str) -> Option<f64> {
    let found = list.iter().find(|(name, _)| *name == title);
    found.map(|(_, wanted)| *wanted)
}

fn met(met: bool) -> &'static str {
    match met {
        true => "met",
        false => "not met",
    }
}

fn print_flat(rows: &[Row], family: &Family) {
    let at = |size: usize| {
        let mut rows = rows.iter();
        let row = rows.find(|row| row.plan.of == Some((family.title, size)));
        row.map(Row::per_line)
    };
    let (Some(short), Some(long)) = (at(FLAT.0), at(FLAT.1)) else {
        return;
    };
    let title = family.title;
    let most = listed(&RISES, title).unwrap_or(RISE);
    let rise = long / short;
    let verdict = met(rise <= most);
    println!("{title:24} {short:8.0} {long:8.0} {most:8.2} {rise:8.2}  {verdict}");
}

/// The dearest hard sheet so many times.
pub fn print_in_a_row(title: &str, time: Duration) {
    let verdict = met(time < ROW_TIME);
    println!(
        "\nTarget: {ROW} hard sheets in a row in less than {ROW_TIME:?}.\n\n{title}, {ROW} times: {time:.2?}  {verdict}"
    );
}

#[cfg(test)]
mod tests {
    use super::{FLOORS, RISES, TIMES};
    use crate::plans::{families, plans};
    use reference::with_stack;

    #[test]
    fn targets_name_plans() {
        let titles: Vec<String> =
            with_stack(|| plans().into_iter().map(|plan| plan.title)).collect();
        for (title, _) in FLOORS.iter().chain(&TIMES) {
            assert!(titles.iter().any(|it| it == title), "{title}");
        }
        for (title, _) in RISES {
            assert!(families().any(|family| family.title == title), "{title}");
        }
    }
}
