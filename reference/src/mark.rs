//! The plain mark over the Rust's trees, from the words of W5: plain looks only
//! at the expected type, the term, and those entries whose name stands in the
//! term as a variable's, a constructor's or a pattern constructor's.

use crate::plan::Plan;
use plain::core::{CorePattern, CoreTerm, CoreType};
use std::collections::HashSet;

pub fn is_plain(plan: &Plan) -> bool {
    let mut term = Looked::default();
    term.look(&plan.term);
    let entries = plan.constructors.iter().chain(&plan.context);
    let mut named = entries.filter(|(name, _)| term.names.contains(name.as_str()));
    !term.quantified && !has_forall(&plan.expected) && !named.any(|(_, ty)| has_forall(ty))
}

fn has_forall(ty: &CoreType) -> bool {
    match ty {
        CoreType::Forall(..) => true,
        CoreType::Arrow(left, right) | CoreType::App(left, right) => {
            has_forall(left) || has_forall(right)
        }
        CoreType::Product(parts) => parts.iter().any(has_forall),
        CoreType::Var(_) | CoreType::ETVar(_) | CoreType::Con(_) => false,
    }
}

/// What was seen in a term: names, and whether there was a quantifier or a type
/// abstraction.
#[derive(Default)]
struct Looked<'a> {
    names: HashSet<&'a str>,
    quantified: bool,
}

impl<'a> Looked<'a> {
    fn look(&mut self, term: &'a CoreTerm) {
        match term {
            CoreTerm::Var(name) => self.name(name),
            CoreTerm::LitInt(_) => {}
            CoreTerm::Lambda { param_ty, body, .. } => {
                self.quantified |= has_forall(param_ty);
                self.look(body);
            }
            CoreTerm::App { func, arg } => self.look_at([&**func, arg]),
            CoreTerm::TypeLambda { body, .. } => {
                self.quantified = true;
                self.look(body);
            }
            CoreTerm::Constructor { name, args } => {
                self.name(name);
                self.look_at(args);
            }
            CoreTerm::Case { scrutinee, arms } => {
                self.look(scrutinee);
                for arm in arms {
                    self.pattern(&arm.pattern);
                    self.look(&arm.body);
                }
            }
            CoreTerm::BinOp { left, right, .. } => self.look_at([&**left, right]),
            CoreTerm::If {
                cond,
                then_branch,
                else_branch,
            } => self.look_at([&**cond, then_branch, else_branch]),
            CoreTerm::IntrinsicCall { args, .. } => self.look_at(args),
        }
    }

    fn look_at(&mut self, terms: impl IntoIterator<Item = &'a CoreTerm>) {
        terms.into_iter().for_each(|term| self.look(term));
    }

    fn pattern(&mut self, pattern: &'a CorePattern) {
        if let CorePattern::Constructor { name, args } = pattern {
            self.name(name);
            args.iter().for_each(|part| self.pattern(part));
        }
    }

    fn name(&mut self, name: &'a str) {
        self.names.insert(name);
    }
}
