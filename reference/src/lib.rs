//! The Rust module as the judge of plans: sheets read and written, plans made,
//! the Rust's answers to them, and the proved checker beside it.

pub mod checks;
pub mod compare;
pub mod damage;
pub mod edges;
pub mod generate;
pub mod listing;
pub mod mark;
pub mod oracle;
pub mod plan;
pub mod proved;
pub mod random;
pub mod raws;
pub mod readers;
pub mod record;
pub mod sheet;
mod stepwise;
#[cfg(test)]
mod tests;
pub mod wall;
pub mod writes;

/// Terms of 2,000 lines nest deep, and the Rust goes through them by recursion.
const STACK: usize = 512 << 20;

/// Runs on a stack that is deep enough for every plan.
pub fn with_stack<T: Send + 'static>(run: impl FnOnce() -> T + Send + 'static) -> T {
    let thread = std::thread::Builder::new().stack_size(STACK).spawn(run);
    match thread.expect("a thread with a large stack").join() {
        Ok(result) => result,
        Err(panic) => std::panic::resume_unwind(panic),
    }
}
