//! The plans that are measured.

use crate::families::{self, Family, PLAIN, QUANTIFIED, STRICT};
use reference::generate::hard;
use reference::generate::limits::Found;
use reference::oracle::{Door, LIMIT, MOST_LIMIT};
use reference::sheet::Line;

pub struct Plan {
    pub title: String,
    /// The family's title and the number of lines that it was asked for.
    pub of: Option<(&'static str, usize)>,
    pub door: Door,
    pub lines: Vec<Line>,
    /// On one written-out type.
    pub limit: u32,
    /// One of the hard sheets.
    pub hard: bool,
}

/// About so many lines.
pub const SIZES: [usize; 3] = [20, 200, 2000];

static FAMILIES: [&[Family]; 3] = [&PLAIN, &QUANTIFIED, &STRICT];

pub fn families() -> impl Iterator<Item = &'static Family> {
    FAMILIES.into_iter().flatten()
}

pub fn plans() -> Vec<Plan> {
    let mut plans = vec![single("7 : Int", families::seven_as_int())];
    plans.extend(families().flat_map(|family| SIZES.map(|size| member(family, size))));
    let singles = [
        ("1,000 fresh numbers", families::numbers()),
        ("10,000 entries taken", families::ceiling()),
        ("catalogue, none named", families::catalogue_unnamed()),
        ("catalogue, all named", families::catalogue_named()),
    ];
    plans.extend(singles.map(|(title, lines)| single(title, lines)));
    let again = [
        ("lowered again", Door::First),
        ("strict lowered again", Door::Strict),
    ];
    plans.extend(again.map(|(title, door)| Plan {
        door,
        ..single(title, families::lowered_again())
    }));
    let under_most = [
        ("4,096 nodes written out", families::written()),
        ("large by solutions", families::large_by_solutions()),
    ];
    plans.extend(under_most.map(|(title, lines)| Plan {
        limit: MOST_LIMIT,
        ..single(title, lines)
    }));
    plans.extend(hard::plans().into_iter().map(hard_plan));
    plans
}

fn member(family: &'static Family, size: usize) -> Plan {
    let title = format!("{} {size}", family.title);
    Plan {
        of: Some((family.title, size)),
        door: family.door,
        ..single(&title, (family.make)(size))
    }
}

fn hard_plan(Found { title, made, limit }: Found) -> Plan {
    Plan {
        limit,
        hard: true,
        ..single(&title, made.lines)
    }
}

fn single(title: &str, lines: Vec<Line>) -> Plan {
    Plan {
        title: title.to_string(),
        of: None,
        door: Door::First,
        lines,
        limit: LIMIT,
        hard: false,
    }
}

#[cfg(test)]
mod tests {
    use super::{plans, Plan};
    use reference::oracle::{answer_lines, under_limit, Answer, MOST_STEPS};
    use reference::sheet::MOST_LINES;
    use reference::with_stack;

    #[test]
    fn plans_are_as_said() {
        with_stack(|| plans().iter().for_each(check));
    }

    fn check(plan: &Plan) {
        let title = plan.title.as_str();
        let lines = plan.lines.len();
        assert!(lines <= MOST_LINES, "{title}");
        if let Some((_, size)) = plan.of {
            let about = size * 17 / 20..=size * 5 / 4;
            assert!(about.contains(&lines), "{title}: {lines} lines");
        }
        let answer = under_limit(plan.limit, || {
            answer_lines(plan.door, &plan.lines, MOST_STEPS)
        });
        let number = match title {
            "long type, refused 2000" => 23,
            "4,096 nodes written out" => 13,
            "H3 spines 899" => 21,
            _ if plan.hard => hard_number(title),
            _ if title.contains("refused") => 15,
            _ => 0,
        };
        assert_eq!(answer.number, number, "{title}");
        match title {
            "1,000 fresh numbers" => assert_eq!(answer.fresh, 1000),
            "10,000 entries taken" => assert_eq!(answer.taken, 10_000),
            "lowered again" => assert_lowered(&answer),
            _ => {}
        }
    }

    /// Board full where patterns are checked, or no such constructor.
    fn hard_number(title: &str) -> u32 {
        match &title[..2] {
            "H1" | "H4" | "H6" => 22,
            "H5" => 12,
            _ => 0,
        }
    }

    /// 64 solutions of 61 nodes, whose 60 unknowns end with the oldest one's level.
    fn assert_lowered(answer: &Answer) {
        let full = answer
            .solutions
            .iter()
            .filter(|(_, nodes)| nodes.len() == 61);
        assert_eq!(full.count(), 64);
        let numbers = answer.levels.iter().zip(0..);
        let lowered: Vec<u32> = numbers
            .filter(|(level, number)| **level < *number)
            .map(|(level, _)| *level)
            .collect();
        assert_eq!(lowered, [1; 60]);
    }
}
