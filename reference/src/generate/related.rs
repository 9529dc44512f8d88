//! Two types to be compared, with quantifiers inside: what one side quantifies
//! is open where the other's is fixed, and the other way round below an Arrow.

use super::types::{app, arrow, forall, Ty, INT};
use crate::random::Random;

/// The names that one side has quantified, by what a comparison makes of them.
#[derive(Clone, Default)]
struct Side {
    unknowns: Vec<u32>,
    universals: Vec<u32>,
}

struct Pairs<'a> {
    random: &'a mut Random,
    next: u32,
}

/// Two types of one shape, the first mostly below the second.
pub fn pair(random: &mut Random) -> (Ty, Ty) {
    let depth = 3 + random.below(4);
    let mut pairs = Pairs { random, next: 10 };
    pairs.pair(Side::default(), Side::default(), depth)
}

impl Pairs<'_> {
    fn name(&mut self) -> u32 {
        self.next += 1;
        self.next - 1
    }

    fn pair(&mut self, mut left: Side, mut right: Side, depth: usize) -> (Ty, Ty) {
        let choice = self.random.below(if depth == 0 { 20 } else { 100 });
        match choice {
            0..=19 => self.ends(&left, &right),
            20..=41 => {
                let name = self.name();
                left.unknowns.push(name);
                let (small, large) = self.pair(left, right, depth - 1);
                (forall(name, small), large)
            }
            42..=61 => {
                let name = self.name();
                right.universals.push(name);
                let (small, large) = self.pair(left, right, depth - 1);
                (small, forall(name, large))
            }
            62..=84 => {
                let (to, from) = self.pair(right.clone(), left.clone(), depth - 1);
                let (small, large) = self.pair(left, right, depth - 1);
                (arrow(from, small), arrow(to, large))
            }
            _ => {
                let (first, second) = self.pair(left.clone(), right.clone(), depth - 1);
                let (small, large) = self.pair(left, right, depth - 1);
                (in_n32(first, small), in_n32(second, large))
            }
        }
    }

    /// An unknown of one side and something of the other, where there is one.
    fn ends(&mut self, left: &Side, right: &Side) -> (Ty, Ty) {
        let from_left = match (left.unknowns.is_empty(), right.unknowns.is_empty()) {
            (true, true) => return (INT, INT),
            (false, false) => self.random.chance(50),
            (is_empty, _) => !is_empty,
        };
        let (open, other) = if from_left {
            (left, right)
        } else {
            (right, left)
        };
        let unknown = Ty::Var(*self.random.pick(&open.unknowns));
        let names = [&other.unknowns[..], &other.universals].concat();
        let other = over(self.random, &names, 2);
        match from_left {
            true => (unknown, other),
            false => (other, unknown),
        }
    }
}

fn in_n32(first: Ty, second: Ty) -> Ty {
    app(app(Ty::Con(32), first), second)
}

/// A type over these names.
fn over(random: &mut Random, names: &[u32], depth: usize) -> Ty {
    let part = |random: &mut Random| over(random, names, depth - 1);
    match random.below(if depth == 0 { 60 } else { 100 }) {
        0..=55 if !names.is_empty() => Ty::Var(*random.pick(names)),
        0..=59 => INT,
        60..=79 => app(Ty::Con(31), part(random)),
        80..=89 => Ty::Product(vec![part(random), part(random)]),
        _ => arrow(part(random), part(random)),
    }
}

/// ∀b. (∀a. n33 ..) → Int and (∀d. n33 ..) → Int: unknowns from before a
/// universal and from after it meet in the arguments, which are compared from
/// the last to the first.
pub fn spines(random: &mut Random) -> (Ty, Ty) {
    let some = |random: &mut Random, first: u32, most| {
        let count = 1 + random.below(most) as u32;
        (first..first + count).collect::<Vec<_>>()
    };
    let (older, fixed) = (some(random, 20, 2), some(random, 30, 2));
    let newer = some(random, 40, 3);
    let (mut small, mut large) = (Ty::Con(33), Ty::Con(33));
    for _ in 0..2 + random.below(3) {
        small = app(small, over(random, &newer, 2));
        let names = if random.chance(50) { &older } else { &fixed };
        let depth = usize::from(random.chance(20));
        large = app(large, over(random, names, depth));
    }
    let left = arrow(closed(&fixed, large), INT);
    (closed(&older, left), arrow(closed(&newer, small), INT))
}

fn closed(names: &[u32], ty: Ty) -> Ty {
    names.iter().fold(ty, |ty, name| forall(*name, ty))
}
