//! The levels of W12, noted as numbers are made and solutions given. What the
//! included file calls has no way to its run, so a step lends the run's levels
//! to its thread and takes them back.

use crate::core::CoreType;
use crate::Door;
use rust_std::cell::RefCell;
use rust_std::mem::take;
use rust_std::vec::Vec as Items;

#[derive(Debug, Clone, Default)]
pub struct Levels {
    door: Door,
    /// By number, for every number made.
    of: Items<usize>,
    /// The unknown that the step under way splits, if it comes to making numbers.
    splits: Option<usize>,
    /// The counter before that step.
    before: usize,
}

rust_std::thread_local! {
    static LENT: RefCell<Levels> = RefCell::new(Levels::default());
}

impl Levels {
    pub fn new(door: Door) -> Self {
        Levels {
            door,
            ..Levels::default()
        }
    }

    pub fn of(&self) -> &[usize] {
        &self.of
    }

    /// The unknown whose split the last step has begun, by making a number.
    pub fn split(&self) -> Option<usize> {
        self.splits.filter(|_| self.of.len() > self.before)
    }

    /// Lends the levels to a step, which may not unwind.
    pub fn during<T>(&mut self, splits: Option<usize>, step: impl FnOnce() -> T) -> T {
        self.splits = splits;
        self.before = self.of.len();
        LENT.set(take(self));
        let result = step();
        *self = LENT.take();
        result
    }
}

/// The number in an unknown's name, "^α" then digits, or in a universal's, "α"
/// then digits. No name of a sheet is spelt so.
pub fn number_after(prefix: &str, name: &str) -> Option<usize> {
    name.strip_prefix(prefix)?.parse().ok()
}

pub fn made_universal(number: usize) {
    LENT.with_borrow_mut(|levels| levels.make(number, 0));
}

/// Its own number, or the level that the unknown has which is split.
pub fn made_unknown(number: usize) {
    LENT.with_borrow_mut(|levels| {
        let level = levels.splits.map_or(number, |split| levels.of[split]);
        levels.make(number, level);
    });
}

/// A universal in the solution numbered above the level of the unknown, where
/// the call asks for none.
pub fn out_of_scope(unknown: usize, solution: &CoreType) -> Option<usize> {
    LENT.with_borrow(|levels| match levels.door {
        Door::First => None,
        Door::Strict => highest_universal(solution).filter(|it| *it > levels.of[unknown]),
    })
}

/// A solution granted lowers the unsolved unknowns in it.
pub fn given(unknown: usize, solution: &CoreType, is_solved: impl Fn(&str) -> bool) {
    LENT.with_borrow_mut(|levels| {
        let split = levels.is_split(solution).then_some(unknown);
        assert_eq!(split, levels.splits, "foreseen from the judgment's sides");
        levels.lower(levels.of[unknown], solution, &is_solved);
    });
}

impl Levels {
    fn make(&mut self, number: usize, level: usize) {
        assert_eq!(number, self.of.len());
        self.of.push(level);
    }

    /// Whether a solution is made of the two unknowns that the step has made.
    fn is_split(&self, solution: &CoreType) -> bool {
        let is_new = |part: &CoreType| match part {
            CoreType::ETVar(name) => number_after("^α", name) >= Some(self.before),
            _ => false,
        };
        match solution {
            CoreType::Arrow(left, right) | CoreType::App(left, right) => {
                is_new(left) && is_new(right)
            }
            _ => false,
        }
    }

    fn lower(&mut self, most: usize, ty: &CoreType, is_solved: &impl Fn(&str) -> bool) {
        if let CoreType::ETVar(name) = ty {
            if !is_solved(name) {
                let number = number_after("^α", name).expect("an unknown");
                self.of[number] = self.of[number].min(most);
            }
        }
        for part in parts(ty) {
            self.lower(most, part, is_solved);
        }
    }
}

fn highest_universal(ty: &CoreType) -> Option<usize> {
    let own = match ty {
        CoreType::Var(name) => number_after("α", name),
        _ => None,
    };
    own.max(parts(ty).into_iter().filter_map(highest_universal).max())
}

fn parts(ty: &CoreType) -> Items<&CoreType> {
    match ty {
        CoreType::Var(_) | CoreType::ETVar(_) | CoreType::Con(_) => Items::new(),
        CoreType::Arrow(left, right) | CoreType::App(left, right) => {
            Items::from([&**left, &**right])
        }
        CoreType::Forall(_, body) => Items::from([&**body]),
        CoreType::Product(parts) => parts.iter().collect(),
    }
}
