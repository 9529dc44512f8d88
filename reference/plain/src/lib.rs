//! The Rust module as it is: the three files included unchanged, nothing
//! shadowed, and beside them a run that goes one entry at a time.

#[allow(dead_code)]
pub mod core {
    include!(concat!(env!("RUST_FILES"), "/core.rs"));
}

#[allow(dead_code)]
pub mod errors {
    include!(concat!(env!("RUST_FILES"), "/errors.rs"));
}

#[allow(dead_code)]
pub mod worklist {
    include!(concat!(env!("RUST_FILES"), "/worklist.rs"));

    /// `check_type` taken apart: the same first push, then one entry a step.
    impl DKInference {
        pub fn start(&mut self, term: CoreTerm, ty: CoreType) {
            let first = Judgment::Chk { term, ty };
            self.worklist.push(WorklistEntry::Judgment(first));
        }

        /// One turn of the loop in `solve`; `None` once the board is empty.
        pub fn step(&mut self) -> Option<TypeResult<()>> {
            self.trace.clear();
            match self.worklist.pop()? {
                WorklistEntry::TVar(_, _) | WorklistEntry::Var(_, _) => Some(Ok(())),
                WorklistEntry::Judgment(judgment) => Some(self.solve_judgment(judgment)),
            }
        }

        pub fn is_done(&self) -> bool {
            self.worklist.entries.is_empty()
        }

        pub fn fresh(&self) -> usize {
            self.worklist.next_var
        }

        /// Whether a number that the last step made is a universal's, by the
        /// TVar that it put on the board.
        pub fn is_universal(&self, number: usize) -> bool {
            let (universal, unknown) = (format!("α{number}"), format!("^α{number}"));
            let mut entries = self.worklist.entries.iter().rev();
            let kind = entries.find_map(|entry| match entry {
                WorklistEntry::TVar(name, _) if *name == universal => Some(true),
                WorklistEntry::TVar(name, _) if *name == unknown => Some(false),
                _ => None,
            });
            kind.expect("a TVar for every number")
        }

        pub fn solved(&self) -> &HashMap<String, CoreType> {
            &self.worklist.solved_evars
        }
    }
}
