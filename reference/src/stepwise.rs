//! The Rust as it is, one entry at a time, with solutions and levels read off
//! what each step leaves: a second way to them beside that of `limited`.

use crate::oracle::{inference, Solution};
use crate::plan::{nodes, unknown_number, Plan};
use plain::errors::TypeResult;
use plain::worklist::DKInference;

pub struct Stepwise {
    pub rust: DKInference,
    pub taken: u32,
    pub solutions: Vec<Solution>,
    pub levels: Vec<u32>,
}

impl Stepwise {
    pub fn start(plan: &Plan) -> Self {
        let mut rust = inference(plan);
        rust.start(plan.term.clone(), plan.expected.clone());
        Stepwise {
            rust,
            taken: 0,
            solutions: Vec::new(),
            levels: Vec::new(),
        }
    }

    pub fn step(&mut self) -> Option<TypeResult<()>> {
        let result = self.rust.step()?;
        self.taken += 1;
        let solution = self.new_solution();
        self.note_made(solution.as_ref());
        if let Some(solution) = solution {
            self.note_lowered(&solution);
            self.solutions.push(solution);
        }
        Some(result)
    }

    /// The map has no order, so what is new in it is looked for after a step.
    fn new_solution(&self) -> Option<Solution> {
        let solved = self.rust.solved();
        let known = self.solutions.len();
        assert!(solved.len() <= known + 1, "two solutions in one step");
        if solved.len() == known {
            return None;
        }
        let mut names = solved.keys();
        let name = names.find(|name| !self.is_solved(unknown_number(name)));
        let name = name.expect("one is new");
        Some((unknown_number(name), nodes(&solved[name])))
    }

    fn is_solved(&self, unknown: u32) -> bool {
        self.solutions.iter().any(|(solved, _)| *solved == unknown)
    }

    /// A solution of two new unknowns shows that they split the solved one.
    fn note_made(&mut self, solution: Option<&Solution>) {
        let before = self.levels.len() as u32;
        let split = solution.filter(|(_, nodes)| match nodes[..] {
            [(13 | 15, _), (17, left), (17, right)] => left.min(right) >= before,
            _ => false,
        });
        let split = split.map(|(unknown, _)| self.levels[*unknown as usize]);
        for number in before..self.rust.fresh() as u32 {
            self.levels
                .push(match self.rust.is_universal(number as usize) {
                    true => 0,
                    false => split.unwrap_or(number),
                });
        }
    }

    fn note_lowered(&mut self, (unknown, nodes): &Solution) {
        let most = self.levels[*unknown as usize];
        for (kind, number) in nodes {
            if *kind == 17 && !self.is_solved(*number) {
                let level = &mut self.levels[*number as usize];
                *level = most.min(*level);
            }
        }
    }
}
