//! Types as the generators make them: trees with name numbers.

use crate::random::Random;
use crate::sheet::{line, Line};
use std::collections::BTreeMap;

#[derive(Debug, Clone, PartialEq, Eq)]
pub enum Ty {
    Var(u32),
    Con(u32),
    Arrow(Box<Ty>, Box<Ty>),
    Forall(u32, Box<Ty>),
    App(Box<Ty>, Box<Ty>),
    Product(Vec<Ty>),
}

pub const INT: Ty = Ty::Con(1);
pub const BOOL: Ty = Ty::Con(2);
pub const UNIT: Ty = Ty::Con(3);

pub fn arrow(left: Ty, right: Ty) -> Ty {
    Ty::Arrow(Box::new(left), Box::new(right))
}

pub fn app(left: Ty, right: Ty) -> Ty {
    Ty::App(Box::new(left), Box::new(right))
}

pub fn forall(name: u32, body: Ty) -> Ty {
    Ty::Forall(name, Box::new(body))
}

impl Ty {
    pub fn lines(&self) -> Vec<Line> {
        let mut lines = Vec::new();
        self.add_lines(&mut lines);
        lines
    }

    fn add_lines(&self, lines: &mut Vec<Line>) {
        match self {
            Ty::Var(name) => lines.push(line(11, *name as i64, 0)),
            Ty::Con(name) => lines.push(line(12, *name as i64, 0)),
            Ty::Arrow(left, right) => {
                lines.push(line(13, 0, 0));
                left.add_lines(lines);
                right.add_lines(lines);
            }
            Ty::Forall(name, body) => {
                lines.push(line(14, *name as i64, 0));
                body.add_lines(lines);
            }
            Ty::App(left, right) => {
                lines.push(line(15, 0, 0));
                left.add_lines(lines);
                right.add_lines(lines);
            }
            Ty::Product(parts) => {
                lines.push(line(16, 0, parts.len() as i64));
                parts.iter().for_each(|part| part.add_lines(lines));
            }
        }
    }

    fn map(&self, one: &dyn Fn(&Ty) -> Ty) -> Ty {
        match self {
            Ty::Var(_) | Ty::Con(_) => self.clone(),
            Ty::Arrow(left, right) => arrow(one(left), one(right)),
            Ty::Forall(name, body) => forall(*name, one(body)),
            Ty::App(left, right) => app(one(left), one(right)),
            Ty::Product(parts) => Ty::Product(parts.iter().map(one).collect()),
        }
    }

    /// Every occurrence of a part replaced.
    pub fn replace(&self, part: &Ty, by: &Ty) -> Ty {
        if self == part {
            return by.clone();
        }
        self.map(&|inner| inner.replace(part, by))
    }

    pub fn parts(&self) -> Vec<&Ty> {
        match self {
            Ty::Var(_) | Ty::Con(_) => Vec::new(),
            Ty::Arrow(left, right) | Ty::App(left, right) => vec![left, right],
            Ty::Forall(_, body) => vec![body],
            Ty::Product(parts) => parts.iter().collect(),
        }
    }

    pub fn is_mono(&self) -> bool {
        !matches!(self, Ty::Forall(..)) && self.parts().iter().all(|part| part.is_mono())
    }

    /// Some part of it, itself included.
    pub fn some_part(&self, random: &mut Random) -> Ty {
        let parts = self.parts();
        if parts.is_empty() || random.chance(35) {
            return self.clone();
        }
        random.pick(&parts).some_part(random)
    }

    /// Whether opening the quantifiers at the front can give the goal.
    pub fn gives(&self, goal: &Ty) -> bool {
        let mut open = BTreeMap::new();
        let mut body = self;
        while let Ty::Forall(name, inner) = body {
            open.insert(*name, None);
            body = inner;
        }
        self == goal || body.fits(goal, &mut open)
    }

    fn fits(&self, goal: &Ty, open: &mut BTreeMap<u32, Option<Ty>>) -> bool {
        match (self, goal) {
            (Ty::Var(name), _) if open.contains_key(name) => match &open[name] {
                Some(chosen) => chosen == goal,
                None => {
                    open.insert(*name, Some(goal.clone()));
                    goal.is_mono()
                }
            },
            (Ty::Arrow(a, b), Ty::Arrow(c, d)) | (Ty::App(a, b), Ty::App(c, d)) => {
                a.fits(c, open) && b.fits(d, open)
            }
            (Ty::Product(parts), Ty::Product(goals)) => {
                parts.len() == goals.len()
                    && parts
                        .iter()
                        .zip(goals)
                        .all(|(part, goal)| part.fits(goal, open))
            }
            _ => self == goal,
        }
    }
}

/// A quantified type that gives the goal again; now and then a quantifier that
/// is not used, or a name quantified twice at the front.
pub fn generalise(goal: &Ty, random: &mut Random) -> Ty {
    let mut ty = goal.clone();
    for name in 10..11 + random.below(2) as u32 {
        let part = goal.some_part(random);
        if part.is_mono() {
            ty = ty.replace(&part, &Ty::Var(name));
        }
        ty = forall(name, ty);
    }
    if random.chance(10) {
        ty = forall(10, ty);
    }
    ty
}

/// A type without quantifiers and variables.
pub fn mono(random: &mut Random, depth: usize) -> Ty {
    if depth == 0 || random.chance(55) {
        return Ty::Con(*random.pick(&[1, 1, 1, 2, 2, 3, 30, 31, 32]));
    }
    let part = |random: &mut Random| mono(random, depth - 1);
    match random.below(10) {
        0..=4 => arrow(part(random), part(random)),
        5..=7 => app(Ty::Con(random.name(30, 32)), part(random)),
        _ => Ty::Product((0..random.below(4)).map(|_| part(random)).collect()),
    }
}

/// A type of a few quantified variables, closed, not always at the front.
pub fn poly(random: &mut Random, depth: usize) -> Ty {
    let name = random.name(10, 12);
    let var = Ty::Var(name);
    let inner = match random.below(8) {
        0 => var,
        1 | 2 => arrow(var.clone(), var),
        3 => arrow(var.clone(), app(Ty::Con(30), var)),
        4 => Ty::Product(vec![var.clone(), var]),
        5 => arrow(mono(random, 1), var),
        6 => arrow(var, mono(random, 1)),
        _ => forall(
            random.name(10, 12),
            arrow(var, Ty::Var(random.name(10, 12))),
        ),
    };
    let quantified = forall(name, inner);
    if depth == 0 || random.chance(50) {
        return quantified;
    }
    match random.below(4) {
        0 => arrow(quantified, mono(random, 1)),
        1 => arrow(mono(random, 1), quantified),
        2 => arrow(poly(random, depth - 1), quantified),
        _ => app(Ty::Con(31), quantified),
    }
}

/// Any type at all, free variables too.
pub fn any(random: &mut Random, depth: usize) -> Ty {
    if depth == 0 || random.chance(40) {
        return match random.below(10) {
            0..=2 => Ty::Var(random.name(10, 12)),
            _ => Ty::Con(*random.pick(&[1, 1, 2, 3, 30, 31])),
        };
    }
    let part = |random: &mut Random| any(random, depth - 1);
    match random.below(10) {
        0..=3 => arrow(part(random), part(random)),
        4..=6 => forall(random.name(10, 12), part(random)),
        7 => app(part(random), part(random)),
        _ => Ty::Product((0..random.below(3)).map(|_| part(random)).collect()),
    }
}

/// A Product of Products that has so many nodes, one at least.
pub fn sized(nodes: usize) -> Ty {
    let leaves = (nodes - 1).min(98);
    let mut parts = vec![INT; leaves];
    if nodes > leaves + 1 {
        parts.push(sized(nodes - leaves - 1));
    }
    Ty::Product(parts)
}
