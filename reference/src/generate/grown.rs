//! Plans that work towards a limit: any plan, filled up with something that is
//! judged before it or grown in its types, until the number turns into that
//! limit's, and the plans around that size.

use super::limits::{making_n30, seven, sheet as sheet_of};
use super::types::{arrow, forall, sized, Ty, INT};
use super::{compared, random as any_plan, scoped, Made};
use crate::oracle::{run_limited, under_limit, Door, Run, LIMIT, MOST_LIMIT, MOST_STEPS};
use crate::random::Random;
use crate::sheet::{line, read_plan, Line, MOST_LINES};

type Lines = Vec<Line>;

/// The four parts of a plan, each with its lines.
#[derive(Debug, Clone, Default)]
pub struct Parts {
    pub constructors: Lines,
    pub context: Lines,
    pub expected: Lines,
    pub term: Lines,
}

impl Parts {
    /// No line within a type or a term has a heading's kind.
    pub fn of(lines: &[Line]) -> Self {
        let first = |kinds: &[i64]| {
            let found = lines.iter().position(|line| kinds.contains(&line.kind));
            found.expect("a plan has both headings")
        };
        let (context, expected, term) = (first(&[2, 3]), first(&[3]), first(&[4]));
        Parts {
            constructors: lines[..context].to_vec(),
            context: lines[context..expected].to_vec(),
            expected: lines[expected + 1..term].to_vec(),
            term: lines[term + 1..].to_vec(),
        }
    }

    pub fn lines(&self) -> Lines {
        let [expected, term] = [line(3, 0, 0), line(4, 0, 0)];
        [
            &self.constructors[..],
            &self.context,
            &[expected],
            &self.expected,
            &[term],
            &self.term,
        ]
        .concat()
    }

    /// With entries more, whose names are above all others, and another term.
    fn with(&self, constructors: &[(u32, Ty)], context: &[(u32, Ty)], term: Lines) -> Lines {
        let more = Parts::of(&sheet_of(constructors, context, INT, vec![seven()]));
        let parts = Parts {
            constructors: [&self.constructors[..], &more.constructors].concat(),
            context: [&self.context[..], &more.context].concat(),
            expected: self.expected.clone(),
            term,
        };
        parts.lines()
    }
}

/// Names that no plan has which is filled.
const FILLER: u32 = 5000;
const LAST: u32 = 5001;
const VALUE: u32 = 5002;
const LINK: u32 = 5003;
const BOUND: u32 = 5004;

/// Quantifiers of a constructor, or nodes of a type, that fills.
const QUANTIFIERS: usize = 80;
const NODES: usize = 100;

fn quantified(count: usize, ty: Ty) -> Ty {
    let names = 6000..6000 + count as u32;
    names.rev().fold(ty, |ty, name| forall(name, ty))
}

fn one(kind: i64, name: u32, count: i64) -> Line {
    line(kind, name as i64, count)
}

/// A term in a Case with no arm, which has any type.
fn unused(term: &[Line]) -> Lines {
    [&[line(27, 0, 0)], term].concat()
}

/// A Case of a value with patterns and bodies; the last body is judged first.
fn case(value: &[Line], arms: &[(Lines, Lines)]) -> Lines {
    let arms_of = arms
        .iter()
        .flat_map(|(pattern, body)| [&pattern[..], body].concat());
    let head = [&[line(27, 0, arms.len() as i64)], value].concat();
    head.into_iter().chain(arms_of).collect()
}

/// A way to grow a plan by a size.
pub type Grow = fn(&Parts, usize) -> Lines;

/// Entries on the board below the term, one for each of the size.
pub fn entries(plan: &Parts, size: usize) -> Lines {
    // an arm has its quantifiers, a Sub and its body
    let (arms, rest) = (size / (QUANTIFIERS + 2), size % (QUANTIFIERS + 2));
    let constructors = [
        (FILLER, quantified(QUANTIFIERS, making_n30(&[]))),
        (LAST, quantified(rest, making_n30(&[]))),
        (VALUE, making_n30(&[])),
    ];
    let filler = (vec![one(43, FILLER, 0)], unused(&[seven()]));
    let mut list = vec![filler; arms];
    list.push((vec![one(43, LAST, 0)], plan.term.clone()));
    plan.with(&constructors, &[], case(&[one(26, VALUE, 0)], &list))
}

/// Nodes on the board below the term, in variables of patterns.
pub fn nodes(plan: &Parts, size: usize) -> Lines {
    let (arms, rest) = (size / NODES, size % NODES + 1);
    let constructors = [
        (FILLER, making_n30(&[sized(NODES)])),
        (LAST, making_n30(&[sized(rest)])),
        (VALUE, making_n30(&[])),
    ];
    let pattern = |name| vec![one(43, name, 1), one(42, BOUND, 0)];
    let mut list = vec![(pattern(FILLER), unused(&[seven()])); arms];
    list.push((pattern(LAST), plan.term.clone()));
    plan.with(&constructors, &[], case(&[one(26, VALUE, 0)], &list))
}

/// A Case whose first body is the term: the others are judged before it.
fn after(plan: &Parts, fillers: Vec<Lines>) -> Lines {
    let bodies = [vec![plan.term.clone()], fillers].concat();
    let any = vec![line(41, 0, 0)];
    let arms: Vec<_> = bodies.into_iter().map(|body| (any.clone(), body)).collect();
    case(&[seven()], &arms)
}

/// Fresh numbers made before the term.
pub fn numbers(plan: &Parts, size: usize) -> Lines {
    // a filler has its quantifiers, its own number, its value's and that one's type's
    let (fillers, rest) = (size / (QUANTIFIERS + 3), size % (QUANTIFIERS + 3));
    let constructors = [
        (FILLER, quantified(QUANTIFIERS, INT)),
        (LAST, quantified(rest, INT)),
    ];
    let filler = |name| unused(&[one(26, name, 0)]);
    let mut list = vec![filler(FILLER); fillers];
    list.push(filler(LAST));
    plan.with(&constructors, &[], after(plan, list))
}

/// Nodes of solutions given before the term. An odd one comes of a link, which
/// takes as many nodes as `LINKED` more.
pub fn solutions(plan: &Parts, size: usize) -> Lines {
    const LINKED: usize = 4;
    let (fillers, rest) = (size / (2 * NODES), size % (2 * NODES));
    let is_odd = rest % 2 == 1;
    let last = rest / 2 + 1 + if is_odd { 0 } else { LINKED };
    let link = forall(10, arrow(Ty::Var(10), Ty::Var(10)));
    let context = [(FILLER, sized(NODES)), (LAST, sized(last)), (LINK, link)];
    let filler = |name| unused(&[one(21, name, 0)]);
    let mut list = vec![filler(FILLER); fillers];
    list.push(filler(LAST));
    list.push(match is_odd {
        true => unused(&[line(24, 0, 0), one(21, LINK, 0), seven()]),
        false => unused(&[seven()]),
    });
    plan.with(&[], &context, after(plan, list))
}

/// Terms that are judged before it, for their steps.
fn steps(plan: &Parts, size: usize) -> Lines {
    let list = vec![unused(&[seven()]); size.min(98)];
    plan.with(&[], &[], after(plan, list))
}

/// The term again and again, as the bodies of a Case.
fn again(plan: &Parts, size: usize) -> Lines {
    let list = vec![plan.term.clone(); size.min(98)];
    plan.with(&[], &[], after(plan, list))
}

/// A type of so many nodes in the place of the constants of one name.
fn grown_types(plan: &Parts, name: i64, size: usize) -> Lines {
    let large = sized(size + 1).lines();
    let lines = plan.lines();
    let grown = lines
        .iter()
        .flat_map(|found| match (found.kind, found.value) {
            (12, value) if value == name => large.clone(),
            _ => vec![*found],
        });
    grown.collect()
}

fn grown_n30(plan: &Parts, size: usize) -> Lines {
    grown_types(plan, 30, size)
}

fn grown_n31(plan: &Parts, size: usize) -> Lines {
    grown_types(plan, 31, size)
}

fn grown_int(plan: &Parts, size: usize) -> Lines {
    grown_types(plan, 1, size)
}

/// The term's type copied into a Product with so many nodes more, taken by a
/// function that gives what is expected.
pub fn copies(plan: &Parts, size: usize) -> Lines {
    const COPIES: usize = 20;
    let parts = [vec![Ty::Var(10); COPIES], vec![sized(size + 1)]].concat();
    let context = [
        (FILLER, forall(10, arrow(Ty::Var(10), Ty::Product(parts)))),
        (
            LAST,
            forall(10, forall(11, arrow(Ty::Var(10), Ty::Var(11)))),
        ),
    ];
    let call = |name| [line(24, 0, 0), one(21, name, 0)];
    let term = [&call(LAST)[..], &call(FILLER), &plan.term].concat();
    plan.with(&[], &context, term)
}

/// Where a search goes: the number, how a plan is grown and by how much at most.
#[derive(Clone, Copy)]
struct Aim {
    number: u32,
    grow: Grow,
    most: usize,
    /// Which of a run's peaks the size adds to, and the limit on it.
    peak: Option<(fn(&Run) -> usize, usize)>,
}

const fn aim(number: u32, grow: Grow, most: usize) -> Aim {
    Aim {
        number,
        grow,
        most,
        peak: None,
    }
}

const fn led(number: u32, grow: Grow, peak: fn(&Run) -> usize, limit: usize) -> Aim {
    Aim {
        number,
        grow,
        most: limit + 20,
        peak: Some((peak, limit)),
    }
}

const AIMS: [Aim; 14] = [
    aim(21, steps, 98),
    aim(21, again, 98),
    led(22, entries, |run| run.peaks.entries, limited::ENTRIES),
    led(22, nodes, |run| run.peaks.nodes, limited::NODES),
    aim(22, grown_n30, 1200),
    aim(23, copies, 1030),
    aim(23, grown_n30, 1030),
    aim(23, grown_n31, 1030),
    aim(23, grown_int, 1030),
    led(24, numbers, |run| run.peaks.numbers, limited::NUMBERS),
    aim(24, again, 98),
    led(25, solutions, |run| run.peaks.solved, limited::SOLVED),
    aim(25, again, 98),
    aim(25, grown_n31, 1200),
];

/// A plan on its way to a limit, with what else the call takes.
#[derive(Debug, Clone)]
pub struct Grown {
    pub door: Door,
    pub limit: u32,
    pub made: Made,
    /// The number that the search went to.
    pub towards: u32,
    /// How far its size is from the least one with that number.
    pub beyond: i32,
}

/// How far below and above the size at which the number turns.
const AROUND: std::ops::RangeInclusive<i32> = -1..=2;

struct Search<'a> {
    aim: Aim,
    door: Door,
    limit: u32,
    ceiling: u32,
    plan: &'a Parts,
}

impl Search<'_> {
    fn lines(&self, size: usize) -> Option<Lines> {
        let lines = (self.aim.grow)(self.plan, size);
        (lines.len() <= MOST_LINES).then_some(lines)
    }

    fn run(&self, size: usize) -> Option<Run> {
        let plan = read_plan(&self.lines(size)?).expect("a plan");
        Some(under_limit(self.limit, || {
            run_limited(self.door, &plan, self.ceiling)
        }))
    }

    /// Whether that size is at the number or past it.
    fn is_there(&self, size: usize) -> bool {
        let run = self.run(size);
        run.is_none_or(|run| run.answer.number == self.aim.number)
    }

    /// Where the size would have to be, by the peak of the plan as it is.
    fn guess(&self) -> usize {
        let Some((peak, limit)) = self.aim.peak else {
            return 1 + self.aim.most / 16;
        };
        let peak = self.run(0).map_or(0, |run| peak(&run));
        (limit + 1).saturating_sub(peak).max(1)
    }

    /// A size at which the number turns: it is there, and was not at one less.
    fn turn(&self) -> Option<usize> {
        if self.is_there(0) {
            return None;
        }
        let (mut low, mut high) = self.bracket()?;
        while high - low > 1 {
            let middle = low + (high - low) / 2;
            match self.is_there(middle) {
                true => high = middle,
                false => low = middle,
            }
        }
        let number = self.run(high)?.answer.number;
        (number == self.aim.number).then_some(high)
    }

    /// A size that is not there and a larger one that is, from the guess on by
    /// steps that double.
    fn bracket(&self) -> Option<(usize, usize)> {
        let guess = self.guess().min(self.aim.most);
        let mut step = 1;
        let (mut low, mut high) = (guess, guess);
        if self.is_there(guess) {
            while low > 0 && self.is_there(low) {
                (high, low) = (low, low.saturating_sub(step));
                step *= 2;
            }
            return Some((low, high));
        }
        while high < self.aim.most {
            (low, high) = (high, (high + step).min(self.aim.most));
            if self.is_there(high) {
                return Some((low, high));
            }
            step *= 2;
        }
        None
    }

    fn plans(&self) -> Vec<Grown> {
        self.turn().map_or(Vec::new(), |turn| self.around(turn))
    }

    /// The plans around that size.
    fn around(&self, turn: usize) -> Vec<Grown> {
        let sizes = AROUND.map(|beyond| (beyond, turn as i32 + beyond));
        let sizes = sizes.filter(|(_, size)| *size >= 0);
        let found = sizes.filter_map(|(beyond, size)| {
            let made = Made {
                ceiling: self.ceiling,
                lines: self.lines(size as usize)?,
            };
            Some(self.grown(made, beyond))
        });
        found.collect()
    }

    fn grown(&self, made: Made, beyond: i32) -> Grown {
        Grown {
            door: self.door,
            limit: self.limit,
            made,
            towards: self.aim.number,
            beyond,
        }
    }

    /// The plan with nothing before it, by ceilings from what it takes to three less.
    fn by_ceiling(&self) -> Vec<Grown> {
        let (Some(lines), Some(run)) = (self.lines(0), self.run(0)) else {
            return Vec::new();
        };
        let ceilings = AROUND.map(|beyond| (beyond, run.answer.taken as i32 - 1 - beyond));
        let found = ceilings.filter(|(_, ceiling)| *ceiling >= 0);
        let made = |ceiling: i32| Made {
            ceiling: ceiling as u32,
            lines: lines.clone(),
        };
        found
            .map(|(beyond, ceiling)| self.grown(made(ceiling), beyond))
            .collect()
    }
}

/// So many searches for each limit, by the seed.
pub fn random(seed: u64, count: usize) -> impl Iterator<Item = Grown> {
    let mut random = Random::new(seed);
    (21..=25).flat_map(move |number| towards(&mut random, number, count))
}

/// How many searches are begun at most for each that comes to its number.
const TRIES: usize = 8;

fn towards(random: &mut Random, number: u32, count: usize) -> Vec<Grown> {
    let aims: Vec<Aim> = AIMS
        .into_iter()
        .filter(|aim| aim.number == number)
        .collect();
    let tries = (0..TRIES * count).map(|_| search(random, &aims));
    let found = tries.filter(|grown| !grown.is_empty());
    found.take(count).flatten().collect()
}

fn search(random: &mut Random, aims: &[Aim]) -> Vec<Grown> {
    let (door, plan) = some_plan(random);
    let aim = *random.pick(aims);
    let search = Search {
        aim,
        door,
        limit: limit_for(random, aim),
        ceiling: MOST_STEPS,
        plan: &plan,
    };
    if aim.number != 21 {
        return search.plans();
    }
    if random.chance(50) {
        return search.by_ceiling();
    }
    let ceiling = 20 + random.below(600) as u32;
    Search { ceiling, ..search }.plans()
}

/// Mostly plans with quantifiers for the strict call, which may refuse them by 39.
fn some_plan(random: &mut Random) -> (Door, Parts) {
    let seed = random.below(usize::MAX) as u64;
    let (strict, made) = match random.below(10) {
        0..=4 => (20, any_plan(seed, 1).next()),
        5..=7 => (80, scoped::random(seed, 1).next()),
        _ => (20, compared::random(seed, 1).next()),
    };
    let door = match random.chance(strict) {
        true => Door::Strict,
        false => Door::First,
    };
    (door, Parts::of(&made.expect("a plan").lines))
}

/// A low one for 23 now and then; for what goes by the size of types the highest.
fn limit_for(random: &mut Random, aim: Aim) -> u32 {
    match (aim.number, aim.peak) {
        (23, _) if random.chance(60) => 8 + random.below(200) as u32,
        (22 | 25, None) => MOST_LIMIT,
        _ => LIMIT,
    }
}
