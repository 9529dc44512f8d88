//! The Rust module under the limits of document 01. `worklist.rs` is included
//! unchanged, in a crate without the standard prelude, so that `Vec`, `HashMap`
//! and `format!` are the ones of `hooks`: each push, fresh number and solution
//! is seen at the moment it happens and in the Rust's own order.

#![no_std]

extern crate std as rust_std;

use rust_std::cell::Cell;

pub use plain::{core, errors};

mod hooks;
mod levels;

pub use hooks::Passed;
pub use worklist::{Limited, Peaks, Rule, Step};

/// The two entry calls of W12.
#[derive(Debug, Clone, Copy, Default, PartialEq, Eq, PartialOrd, Ord)]
pub enum Door {
    #[default]
    First,
    /// Refuses a solution with a universal numbered above the unknown's level.
    Strict,
}

/// Entries on the board.
pub const ENTRIES: usize = 512;
/// Type nodes on the board, all types of all entries.
pub const NODES: usize = 4096;
/// Nodes in one written-out type.
pub const WRITTEN: usize = 1024;
/// Fresh numbers.
pub const NUMBERS: usize = 1000;
/// Nodes of all solutions.
pub const SOLVED: usize = 4096;

rust_std::thread_local! {
    /// The limits that this thread's runs are put to, in the order above.
    static LIMITS: Cell<[usize; 5]> = const { Cell::new([ENTRIES, NODES, WRITTEN, NUMBERS, SOLVED]) };
}

/// Smaller limits, so that small plans meet them: the definition takes any.
pub fn set_limits(limits: [usize; 5]) {
    LIMITS.set(limits);
}

/// The limit on one written-out type alone; gives the one before.
pub fn set_written(limit: usize) -> usize {
    set_limit(2, limit)
}

/// The same for the nodes of all solutions.
pub fn set_solved(limit: usize) -> usize {
    set_limit(4, limit)
}

fn set_limit(at: usize, limit: usize) -> usize {
    let mut limits = LIMITS.get();
    let before = rust_std::mem::replace(&mut limits[at], limit);
    LIMITS.set(limits);
    before
}

fn limit(at: usize) -> usize {
    LIMITS.get()[at]
}

#[allow(dead_code)]
mod worklist {
    use crate::hooks::{done, node_count, set_done, Element, Passed, Vec};
    use crate::levels::{number_after, Levels};
    use crate::Door;
    use rust_std::boxed::Box;
    use rust_std::panic::{catch_unwind, resume_unwind, AssertUnwindSafe};
    use rust_std::string::{String, ToString};

    /// What `use std::collections::HashMap` finds.
    mod std {
        pub mod collections {
            pub use crate::hooks::HashMap;
        }
    }

    /// Fresh numbers are tested as they are spelt; the trace stays empty.
    macro_rules! format {
        ("α{}", $number:expr) => {
            crate::hooks::fresh_universal($number)
        };
        ("^α{}", $number:expr) => {
            crate::hooks::fresh_unknown($number)
        };
        ($($trace:tt)*) => {
            String::new()
        };
    }

    include!(concat!(env!("RUST_FILES"), "/worklist.rs"));

    impl Element for WorklistEntry {
        const ON_BOARD: bool = true;

        fn nodes(&self) -> usize {
            match self {
                WorklistEntry::TVar(_, _) => 0,
                WorklistEntry::Var(_, ty) => node_count(ty),
                WorklistEntry::Judgment(judgment) => match judgment {
                    Judgment::Sub { left, right } => node_count(left) + node_count(right),
                    Judgment::Inf { ty, .. } | Judgment::Chk { ty, .. } => node_count(ty),
                    Judgment::InfApp {
                        func_ty, result_ty, ..
                    } => node_count(func_ty) + node_count(result_ty),
                },
            }
        }
    }

    /// The highest that each limited number has stood in a run.
    #[derive(Debug, Clone, Copy, Default, PartialEq, Eq)]
    pub struct Peaks {
        pub entries: usize,
        pub nodes: usize,
        pub written: usize,
        pub numbers: usize,
        pub solved: usize,
    }

    fn type_name(ty: &CoreType) -> &'static str {
        match ty {
            CoreType::Var(_) => "Var",
            CoreType::ETVar(_) => "unknown",
            CoreType::Con(_) => "Con",
            CoreType::Arrow(..) => "Arrow",
            CoreType::Forall(..) => "Forall",
            CoreType::App(..) => "App",
            CoreType::Product(_) => "Product",
        }
    }

    fn term_name(term: &CoreTerm) -> &'static str {
        match term {
            CoreTerm::Var(_) => "Var",
            CoreTerm::LitInt(_) => "LitInt",
            CoreTerm::Lambda { .. } => "Lambda",
            CoreTerm::App { .. } => "App",
            CoreTerm::TypeLambda { .. } => "TypeLambda",
            CoreTerm::Constructor { .. } => "Constructor",
            CoreTerm::Case { .. } => "Case",
            CoreTerm::BinOp { .. } => "BinOp",
            CoreTerm::If { .. } => "If",
            CoreTerm::IntrinsicCall { .. } => "IntrinsicCall",
        }
    }

    #[derive(Debug)]
    pub enum Step {
        Went,
        Refused(TypeError),
        Passed(Passed),
    }

    /// A judgment's form and the heads of what it is about, types written out.
    pub type Rule = [&'static str; 3];

    /// A run under the limits, one entry at a time.
    pub struct Limited {
        inference: DKInference,
        written: usize,
        levels: Levels,
        rule: Rule,
    }

    impl Limited {
        pub fn start(
            door: Door,
            data_constructors: impl Iterator<Item = (String, CoreType)>,
            var_context: impl Iterator<Item = (String, CoreType)>,
            term: CoreTerm,
            ty: CoreType,
        ) -> Self {
            let mut inference =
                DKInference::with_context(data_constructors.collect(), var_context.collect());
            let first = Judgment::Chk { term, ty };
            inference.worklist.push(WorklistEntry::Judgment(first));
            Limited {
                inference,
                written: 0,
                levels: Levels::new(door),
                rule: Rule::default(),
            }
        }

        /// One turn of the loop in `solve`; `None` once the board is empty. A
        /// passed limit unwinds out of the Rust's rule before the operation.
        pub fn step(&mut self) -> Option<Step> {
            let entry = self.inference.worklist.pop()?;
            let WorklistEntry::Judgment(judgment) = entry else {
                return Some(Step::Went);
            };
            set_done(0);
            self.rule = self.rule_of(&judgment);
            if let Err(passed) = self.write_out(&judgment) {
                return Some(Step::Passed(passed));
            }
            set_done(0);
            let splits = self.split_by(&judgment);
            let inference = &mut self.inference;
            let rule = AssertUnwindSafe(|| inference.solve_judgment(judgment));
            let result = self.levels.during(splits, || catch_unwind(rule));
            Some(match result {
                Ok(Ok(())) => Step::Went,
                Ok(Err(error)) => Step::Refused(error),
                Err(payload) => match payload.downcast::<Passed>() {
                    Ok(passed) => Step::Passed(*passed),
                    Err(other) => resume_unwind(other),
                },
            })
        }

        fn rule_of(&self, judgment: &Judgment) -> Rule {
            match judgment {
                Judgment::Sub { left, right } => [
                    "Sub",
                    type_name(self.head(left)),
                    type_name(self.head(right)),
                ],
                Judgment::Inf { term, .. } => ["Inf", term_name(term), ""],
                Judgment::Chk { term, ty } => ["Chk", term_name(term), type_name(ty)],
                Judgment::InfApp { func_ty, .. } => ["InfApp", type_name(self.head(func_ty)), ""],
            }
        }

        /// The unknown that a rule splits, if it comes to making numbers: known
        /// before the rule runs, since it can be refused amid the split.
        fn split_by(&self, judgment: &Judgment) -> Option<usize> {
            use CoreType::{App, Arrow, ETVar};
            let split = match judgment {
                Judgment::Sub { left, right } => match (self.head(left), self.head(right)) {
                    (ETVar(name), Arrow(..) | App(..)) | (Arrow(..) | App(..), ETVar(name)) => name,
                    _ => return None,
                },
                Judgment::InfApp { func_ty, .. } => match self.head(func_ty) {
                    ETVar(name) => name,
                    _ => return None,
                },
                Judgment::Inf { .. } | Judgment::Chk { .. } => return None,
            };
            number_after("^α", split)
        }

        /// A type at its top, as `zonk` writes it.
        fn head<'a>(&'a self, ty: &'a CoreType) -> &'a CoreType {
            let CoreType::ETVar(name) = ty else {
                return ty;
            };
            let solution = self.inference.worklist.find_evar_solution(name);
            solution.map_or(ty, |solution| self.head(solution))
        }

        /// `zonk` is what a Sub and an InfApp begin with, so its limit can be
        /// tested before the rule runs, by counting alone.
        fn write_out(&mut self, judgment: &Judgment) -> Result<(), Passed> {
            match judgment {
                Judgment::Sub { left, right } => {
                    self.write_one(left)?;
                    self.write_one(right)
                }
                Judgment::InfApp {
                    func_ty, result_ty, ..
                } => {
                    self.write_one(func_ty)?;
                    self.write_one(result_ty)
                }
                Judgment::Inf { .. } | Judgment::Chk { .. } => Ok(()),
            }
        }

        fn write_one(&mut self, ty: &CoreType) -> Result<(), Passed> {
            let mut count = 0;
            self.count_written(ty, &mut count);
            if count > crate::limit(2) {
                return Err(Passed {
                    number: 23,
                    reached: count,
                });
            }
            self.written = self.written.max(count);
            set_done(done() + 1);
            Ok(())
        }

        /// Counts what `zonk` would write, and stops a little past the limit.
        fn count_written(&self, ty: &CoreType, count: &mut usize) {
            if *count > crate::limit(2) + 1 {
                return;
            }
            if let CoreType::ETVar(name) = ty {
                if let Some(solution) = self.inference.worklist.find_evar_solution(name) {
                    return self.count_written(solution, count);
                }
            }
            *count += 1;
            match ty {
                CoreType::Arrow(left, right) | CoreType::App(left, right) => {
                    self.count_written(left, count);
                    self.count_written(right, count);
                }
                CoreType::Forall(_, body) => self.count_written(body, count),
                CoreType::Product(parts) => {
                    for part in parts {
                        self.count_written(part, count);
                    }
                }
                CoreType::Var(_) | CoreType::ETVar(_) | CoreType::Con(_) => {}
            }
        }

        pub fn is_done(&self) -> bool {
            self.inference.worklist.entries.is_empty()
        }

        pub fn fresh(&self) -> usize {
            self.inference.worklist.next_var
        }

        /// The solutions in order of solving.
        pub fn solutions(&self) -> impl Iterator<Item = (&str, &CoreType)> {
            self.inference.worklist.solved_evars.in_order()
        }

        /// The levels of the numbers made, in their order.
        pub fn levels(&self) -> &[usize] {
            assert_eq!(self.levels.of().len(), self.fresh());
            self.levels.of()
        }

        /// The unknown whose split the last judgment has begun.
        pub fn split(&self) -> Option<usize> {
            self.levels.split()
        }

        /// The last judgment, and how many limited operations it has done: numbers
        /// made, entries pushed, solutions given, or, where 23 ended it, types
        /// written out.
        pub fn last(&self) -> (Rule, usize) {
            (self.rule, done())
        }

        pub fn peaks(&self) -> Peaks {
            Peaks {
                entries: self.inference.worklist.entries.peak_len(),
                nodes: self.inference.worklist.entries.peak_nodes(),
                written: self.written,
                numbers: self.fresh(),
                solved: self.inference.worklist.solved_evars.solved(),
            }
        }
    }
}
