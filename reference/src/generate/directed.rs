//! Plans led by their types: a term is made for a goal, and what it needs is
//! put into context and constructors as it goes. About half of them carry one
//! planted fault. Whether a plan is accepted is for the Rust to say.

use super::types::{app, arrow, forall, generalise, mono, poly, Ty, BOOL, INT, UNIT};
use super::wild;
use crate::random::Random;
use crate::sheet::{line, Line};
use std::collections::BTreeMap;

/// Named after the error that it aims at; the occurs check ends in 15.
#[derive(Debug, Clone, Copy, PartialEq, Eq)]
enum Fault {
    UnboundVariable,
    UnboundConstructor,
    NotAFunction,
    Arity,
    Subtyping,
    Instantiation,
    IntrinsicArity,
    UnknownIntrinsic,
    Occurs,
}

const FAULTS: [(Option<Fault>, usize); 10] = [
    (None, 78),
    (Some(Fault::UnboundVariable), 6),
    (Some(Fault::UnboundConstructor), 7),
    (Some(Fault::NotAFunction), 10),
    (Some(Fault::Arity), 4),
    (Some(Fault::Subtyping), 4),
    (Some(Fault::Instantiation), 8),
    (Some(Fault::IntrinsicArity), 8),
    (Some(Fault::UnknownIntrinsic), 8),
    (Some(Fault::Occurs), 5),
];

/// A constructor with the parameters and the result that one opening gives.
struct Opening {
    name: u32,
    params: Vec<Ty>,
    result: Ty,
}

struct Directed<'a> {
    random: &'a mut Random,
    constructors: BTreeMap<u32, Ty>,
    openings: Vec<Opening>,
    context: BTreeMap<u32, Ty>,
    /// Variables of Lambdas and patterns, the newest last.
    scope: Vec<(u32, Ty)>,
    fault: Option<Fault>,
    out: Vec<Line>,
}

pub fn plan(random: &mut Random) -> Vec<Line> {
    let fault = random.weighted(&FAULTS);
    let size = size(random);
    let goal = goal(random);
    let mut made = Directed {
        random,
        constructors: BTreeMap::new(),
        openings: Vec::new(),
        context: BTreeMap::new(),
        scope: Vec::new(),
        fault,
        out: Vec::new(),
    };
    made.term(&goal, size);
    super::sheet(&made.constructors, &made.context, &goal, &made.out)
}

fn size(random: &mut Random) -> usize {
    match random.below(100) {
        0..=39 => 1 + random.below(8),
        40..=74 => 4 + random.below(16),
        75..=97 => 10 + random.below(30),
        _ => 60 + random.below(200),
    }
}

fn goal(random: &mut Random) -> Ty {
    match random.below(20) {
        0..=4 => INT,
        5 | 6 => BOOL,
        7 | 8 => UNIT,
        9 | 10 => Ty::Con(30),
        11 => app(Ty::Con(31), mono(random, 1)),
        12..=14 => arrow(mono(random, 1), mono(random, 1)),
        15 => arrow(poly(random, 0), mono(random, 1)),
        16 | 17 => poly(random, 1),
        _ => mono(random, 3),
    }
}

impl Directed<'_> {
    fn put(&mut self, kind: i64, value: u32, count: usize) {
        self.out.push(line(kind, value as i64, count as i64));
    }

    fn term(&mut self, goal: &Ty, size: usize) {
        if self.fault.is_some() && self.random.chance(if size < 3 { 60 } else { 25 }) {
            let fault = self.fault.take().expect("tested");
            return self.plant(fault, goal, size);
        }
        if size < 2 || self.random.chance(8) {
            return self.leaf(goal);
        }
        match (goal, self.random.below(10)) {
            (Ty::Arrow(from, to), 0..=5) => self.lambda(from, to, size),
            (Ty::Forall(name, body), 0..=4) => {
                self.put(25, *name, 0);
                self.term(body, size - 1);
            }
            (Ty::Con(1), 0..=3) => self.bin_op(1, size),
            (Ty::Con(2), 0..=3) => self.bin_op(5, size),
            (Ty::Con(3), 0..=4) => {
                self.put(30, 4, 1);
                self.term(&INT, size - 1);
            }
            _ => self.any_goal(goal, size),
        }
    }

    /// Forms that are good for every goal.
    fn any_goal(&mut self, goal: &Ty, size: usize) {
        match self.random.below(12) {
            0..=3 => self.application(goal, size),
            4 | 5 => {
                self.put(29, 0, 0);
                self.term(&BOOL, size / 3);
                self.term(goal, size / 3);
                self.term(goal, size / 3);
            }
            6 if self.random.chance(30) => self.repeated_case(goal, size),
            6..=9 => self.case(goal, size),
            10 => {
                let name = self.random.name(10, 12);
                self.put(25, name, 0);
                self.term(goal, size - 1);
            }
            _ => self.constructor(goal),
        }
    }

    fn leaf(&mut self, goal: &Ty) {
        match (goal, self.random.below(10)) {
            (Ty::Con(1), 0..=6) => {
                let value = self.random.below(2000) as i64 - 1000;
                self.out.push(line(22, value, 0));
            }
            (_, 0) => self.constructor(goal),
            _ => {
                let name = self.variable(goal);
                self.put(21, name, 0);
            }
        }
    }

    /// The first operator of four arithmetic or of two comparing ones.
    fn bin_op(&mut self, first: u32, size: usize) {
        let last = if first == 1 { 4 } else { 6 };
        let op = self.random.name(first, last);
        self.put(28, op, 0);
        self.term(&INT, size / 2);
        self.term(&INT, size / 2);
    }

    fn lambda(&mut self, from: &Ty, to: &Ty, size: usize) {
        let name = self.bound_name();
        self.put(23, name, 0);
        self.out.extend(from.lines());
        self.scope.push((name, from.clone()));
        self.term(to, size.saturating_sub(1));
        self.scope.pop();
    }

    fn application(&mut self, goal: &Ty, size: usize) {
        let from = match self.random.below(8) {
            0 => poly(self.random, 0),
            1..=3 => INT,
            _ => mono(self.random, 1),
        };
        self.put(24, 0, 0);
        self.term(&arrow(from.clone(), goal.clone()), size / 2);
        self.term(&from, size / 2);
    }

    /// A constructor of the goal's type; its arguments are never read.
    fn constructor(&mut self, goal: &Ty) {
        let known = self.constructors.iter().find(|(_, ty)| ty.gives(goal));
        let name = match known {
            Some((name, _)) => *name,
            None => {
                let ty = self.maybe_general(goal);
                self.new_constructor(ty)
            }
        };
        let args = *self.random.pick(&[0, 0, 0, 1, 2]);
        self.put(26, name, args);
        for _ in 0..args {
            let size = 1 + self.random.below(3);
            wild::add_term(self.random, size, &mut self.out);
        }
    }

    fn maybe_general(&mut self, goal: &Ty) -> Ty {
        if self.random.chance(40) {
            generalise(goal, self.random)
        } else {
            goal.clone()
        }
    }

    /// Mostly a new name; an old one then gets the new type.
    fn new_constructor(&mut self, ty: Ty) -> u32 {
        let name = match self.random.below(30) {
            0 => self.random.name(40, 52),
            _ => 20 + self.constructors.len().min(9) as u32,
        };
        self.constructors.insert(name, ty);
        name
    }

    /// A name for a Lambda or a pattern: a small pool, which meets the names of
    /// the context and of constructors now and then.
    fn bound_name(&mut self) -> u32 {
        match self.random.below(40) {
            0 => self.random.name(40, 42),
            1..=3 => self.random.name(20, 22),
            4 => self.random.name(1, 4),
            _ => self.random.name(50, 56),
        }
    }

    /// A name for a pattern, often the newest one again.
    fn pattern_name(&mut self) -> u32 {
        match self.scope.last() {
            Some((name, _)) if self.random.chance(25) => *name,
            _ => self.bound_name(),
        }
    }

    /// Looked up as the Rust does.
    fn type_of(&self, name: u32) -> Option<&Ty> {
        let bound = self.scope.iter().rev().find(|(bound, _)| *bound == name);
        self.context
            .get(&name)
            .or(bound.map(|(_, ty)| ty))
            .or(self.constructors.get(&name))
    }

    /// A variable that can stand for the goal, put into the context if none is
    /// there.
    fn variable(&mut self, goal: &Ty) -> u32 {
        let mut names: Vec<u32> = self.scope.iter().map(|(name, _)| *name).collect();
        names.extend(self.context.keys().chain(self.constructors.keys()));
        names.retain(|name| self.type_of(*name).is_some_and(|ty| ty.gives(goal)));
        if !names.is_empty() && self.random.chance(80) {
            return *self.random.pick(&names);
        }
        let name = match self.random.below(40) {
            0 => self.random.name(50, 56),
            1 => self.random.name(1, 4),
            _ => 40 + self.context.len() as u32 % 10,
        };
        let ty = self.maybe_general(goal);
        self.context.insert(name, ty);
        name
    }

    fn case(&mut self, goal: &Ty, size: usize) {
        let arms = *self.random.pick(&[0, 1, 1, 1, 2, 2, 2, 3, 3]);
        let scrutinee = self.scrutinee_type();
        let part = size / (arms + 1);
        let depth = self.scope.len();
        self.put(27, 0, arms);
        self.term(&scrutinee, part);
        for _ in 0..arms {
            self.pattern(&scrutinee, 2);
            self.term(goal, part);
        }
        self.scope.truncate(depth);
    }

    /// One variable for two parameters, used at the type of the last.
    fn repeated_case(&mut self, goal: &Ty, size: usize) {
        let result = Ty::Con(self.random.name(30, 32));
        let (first, last) = (mono(self.random, 1), mono(self.random, 1));
        let ty = arrow(first, arrow(last.clone(), result.clone()));
        let constructor = self.new_constructor(ty);
        let function = self.variable(&arrow(last, goal.clone()));
        let name = self.random.name(50, 56);
        self.put(27, 0, 1);
        self.term(&result, size / 2);
        self.put(43, constructor, 2);
        self.put(42, name, 0);
        self.put(42, name, 0);
        self.put(24, 0, 0);
        self.put(21, function, 0);
        self.put(21, name, 0);
    }

    fn scrutinee_type(&mut self) -> Ty {
        match self.random.below(10) {
            0 | 1 => INT,
            2..=4 => Ty::Con(self.random.name(30, 32)),
            5..=7 => app(Ty::Con(self.random.name(30, 32)), mono(self.random, 1)),
            _ => mono(self.random, 2),
        }
    }

    fn pattern(&mut self, ty: &Ty, depth: usize) {
        match self.random.below(10) {
            0 | 1 => self.put(41, 0, 0),
            2..=4 => {
                let name = self.pattern_name();
                self.put(42, name, 0);
                self.scope.push((name, ty.clone()));
            }
            _ if depth == 0 || matches!(ty, Ty::Arrow(..)) => self.put(41, 0, 0),
            _ => {
                let (name, params) = self.opening(ty);
                self.put(43, name, params.len());
                params
                    .iter()
                    .for_each(|param| self.pattern(param, depth - 1));
            }
        }
    }

    /// A constructor with that result, old or new, and its parameters.
    fn opening(&mut self, result: &Ty) -> (u32, Vec<Ty>) {
        let known: Vec<usize> = (0..self.openings.len())
            .filter(|at| self.openings[*at].result == *result)
            .collect();
        if !known.is_empty() && self.random.chance(60) {
            let at = *self.random.pick(&known);
            return (self.openings[at].name, self.openings[at].params.clone());
        }
        let count = self.random.below(4);
        let params: Vec<Ty> = (0..count).map(|_| self.param_type(result)).collect();
        let ty = params
            .iter()
            .rev()
            .fold(result.clone(), |to, from| arrow(from.clone(), to));
        let ty = self.maybe_general(&ty);
        let name = self.new_constructor(ty);
        self.openings.push(Opening {
            name,
            params: params.clone(),
            result: result.clone(),
        });
        (name, params)
    }

    /// Often a part of the result, so that quantifying one touches the other.
    fn param_type(&mut self, result: &Ty) -> Ty {
        match self.random.below(8) {
            0..=2 => result.some_part(self.random),
            3 => poly(self.random, 0),
            _ => mono(self.random, 1),
        }
    }

    fn plant(&mut self, fault: Fault, goal: &Ty, size: usize) {
        match fault {
            Fault::UnboundVariable => {
                let name = self.random.name(90, 99);
                self.put(21, name, 0);
            }
            Fault::UnboundConstructor => self.unbound_constructor(goal, size),
            Fault::NotAFunction => {
                let from = [BOOL, Ty::Con(30), Ty::Product(vec![INT]), INT, UNIT];
                let from = self.random.pick(&from).clone();
                self.put(24, 0, 0);
                self.term(&from, size / 2);
                self.term(&INT, size / 2);
            }
            Fault::Arity => self.arity(goal, size),
            Fault::Subtyping => {
                let other = mono(self.random, 2);
                self.term(&other, size);
            }
            Fault::Instantiation => self.instantiation(goal, size),
            Fault::IntrinsicArity => {
                let args = *self.random.pick(&[0, 2, 2, 3]);
                self.put(30, 4, args);
                (0..args).for_each(|_| self.term(&INT, size / 3));
            }
            Fault::Occurs => self.occurs(size),
            Fault::UnknownIntrinsic => {
                let name = *self.random.pick(&[1, 3, 20, 40, 9999]);
                let args = self.random.below(3);
                self.put(30, name, args);
                (0..args).for_each(|_| self.term(&INT, size / 3));
            }
        }
    }

    /// A pattern variable of no known type, applied to itself or set beside a
    /// larger type that is made of its own.
    fn occurs(&mut self, size: usize) {
        let name = self.random.name(50, 56);
        self.put(27, 0, 1);
        self.term(&INT, size / 2);
        self.put(42, name, 0);
        if self.random.chance(30) {
            self.put(24, 0, 0);
            self.put(21, name, 0);
            return self.put(21, name, 0);
        }
        let var = Ty::Var(10);
        let larger = match self.random.below(4) {
            0 => arrow(var.clone(), INT),
            1 => app(Ty::Con(31), var.clone()),
            _ => Ty::Product(vec![INT, var.clone()]),
        };
        let function = self.random.name(60, 63);
        self.context
            .insert(function, forall(10, arrow(var, larger)));
        self.put(29, 0, 0);
        self.term(&BOOL, size / 2);
        self.put(21, name, 0);
        self.put(24, 0, 0);
        self.put(21, function, 0);
        self.put(21, name, 0);
    }

    fn unbound_constructor(&mut self, goal: &Ty, size: usize) {
        let name = self.random.name(90, 99);
        let args = self.random.below(3);
        if self.random.chance(50) {
            self.put(26, name, args);
            (0..args).for_each(|_| self.term(&INT, 1));
            return;
        }
        self.put(27, 0, 1);
        self.term(&INT, size / 2);
        self.put(43, name, args);
        (0..args).for_each(|_| self.put(41, 0, 0));
        self.term(goal, size / 2);
    }

    /// A pattern with one argument too many or too few.
    fn arity(&mut self, goal: &Ty, size: usize) {
        let ty = self.scrutinee_type();
        self.put(27, 0, 1);
        self.term(&ty, size / 2);
        let (name, params) = self.opening(&ty);
        let args = match params.len() {
            0 => 1,
            count => *self.random.pick(&[count - 1, count + 1]),
        };
        self.put(43, name, args);
        (0..args).for_each(|_| self.put(41, 0, 0));
        self.term(goal, size / 2);
    }

    /// A Product with a quantifier inside, which no unknown can stand for.
    fn instantiation(&mut self, goal: &Ty, size: usize) {
        let mut parts: Vec<Ty> = (0..self.random.below(3))
            .map(|_| mono(self.random, 1))
            .collect();
        parts.push(poly(self.random, 1));
        let product = Ty::Product(parts);
        let name = self.random.name(60, 63);
        if self.random.chance(50) {
            self.context.insert(name, product);
            return self.put(21, name, 0);
        }
        self.put(24, 0, 0);
        self.lambda(&product, goal, size);
        self.leaf(&product);
    }
}
