//! Terms that can have any type, so that unknowns stay open while newer
//! universals come: Cases with no arm, and patterns' variables, which are used
//! before the Case's own type is known.

use super::sheet;
use super::types::{app, arrow, forall, Ty, BOOL, INT};
use crate::random::Random;
use crate::sheet::{line, Line};
use std::collections::BTreeMap;

/// ∀a. a, a function of any type to itself, into n31 and out of it, and the
/// first of a plan's own variables.
const ANY: u32 = 40;
const LINK: u32 = 41;
const INTO: u32 = 42;
const OUT: u32 = 43;
const OWN: u32 = 50;
/// The first names that terms and quantifiers bind.
const BOUND: u32 = 70;
const QUANTIFIED: u32 = 10;

pub fn plan(random: &mut Random) -> Vec<Line> {
    let own = 1 + random.below(3);
    let context = context(random, own);
    let expected = ty(random, 0, 3);
    let mut open = Open {
        random,
        own,
        bound: 0,
        out: Vec::new(),
    };
    open.term(3);
    sheet(&BTreeMap::new(), &context, &expected, &open.out)
}

fn context(random: &mut Random, own: usize) -> BTreeMap<u32, Ty> {
    let a = || Ty::Var(QUANTIFIED);
    let boxed = || app(Ty::Con(31), a());
    let known = [
        (ANY, a()),
        (LINK, arrow(a(), a())),
        (INTO, arrow(a(), boxed())),
        (OUT, arrow(boxed(), a())),
    ];
    let known = known.map(|(name, ty)| (name, forall(QUANTIFIED, ty)));
    let own = (OWN..OWN + own as u32).map(|name| (name, ty(random, 0, 3)));
    known.into_iter().chain(own).collect()
}

/// A closed type below so many quantifiers.
fn ty(random: &mut Random, names: usize, depth: usize) -> Ty {
    let part = |random: &mut Random| ty(random, names, depth - 1);
    match random.below(if depth == 0 { 40 } else { 100 }) {
        0..=27 if names > 0 => Ty::Var(QUANTIFIED + random.below(names) as u32),
        0..=33 => INT,
        34..=39 => BOOL,
        40..=64 => arrow(part(random), part(random)),
        65..=74 => app(Ty::Con(31), part(random)),
        75..=77 => Ty::Product(vec![part(random), part(random)]),
        _ => forall(QUANTIFIED + names as u32, ty(random, names + 1, depth - 1)),
    }
}

struct Open<'a> {
    random: &'a mut Random,
    /// How many variables of its own the plan has, and how many names are bound.
    own: usize,
    bound: usize,
    out: Vec<Line>,
}

impl Open<'_> {
    fn put(&mut self, kind: i64, value: u32, count: usize) {
        self.out.push(line(kind, value as i64, count as i64));
    }

    fn term(&mut self, depth: usize) {
        match self.random.below(if depth == 0 { 40 } else { 100 }) {
            0..=2 => self.put(22, 7, 0),
            3..=19 => self.any(),
            20..=39 => self.variable(),
            40..=64 => {
                self.put(24, 0, 0);
                self.term(depth - 1);
                self.term(depth - 1);
            }
            65..=74 => {
                self.put(29, 0, 0);
                self.any();
                self.term(depth - 1);
                self.term(depth - 1);
            }
            75..=87 => {
                self.put(27, 0, 1);
                self.term(depth - 1);
                self.below(42, None, depth);
            }
            _ => {
                let ty = ty(self.random, 0, 2);
                self.below(23, Some(ty), depth);
            }
        }
    }

    /// 7 in a Case with no arm.
    fn any(&mut self) {
        self.put(27, 0, 0);
        self.put(22, 7, 0);
    }

    fn variable(&mut self) {
        let name = match self.random.below(10) {
            0..=4 if self.bound > 0 => BOUND + self.random.below(self.bound) as u32,
            0..=7 => OWN + self.random.below(self.own) as u32,
            8 => ANY,
            _ => *self.random.pick(&[LINK, INTO, OUT]),
        };
        self.put(21, name, 0);
    }

    /// A term below a pattern's variable or a function's parameter.
    fn below(&mut self, kind: i64, ty: Option<Ty>, depth: usize) {
        self.put(kind, BOUND + self.bound as u32, 0);
        self.out.extend(ty.iter().flat_map(Ty::lines));
        self.bound += 1;
        self.term(depth - 1);
        self.bound -= 1;
    }
}
