//! A plain checker in C (anchor.c) beside ours, on plans without a Case.

use reference::checks::Call;
use reference::proved::{lend, Buffers, Check};
use reference::sheet::Line;

/// Nothing where build.rs found no C compiler.
pub const ANCHOR: Option<Check> = linked::ANCHOR;

const CASE: i64 = 27;

/// The anchor, for the plans that it checks.
pub fn anchor_of(lines: &[Line]) -> Option<Check> {
    let has_case = lines.iter().any(|line| line.kind == CASE);
    ANCHOR.filter(|_| !has_case)
}

/// Whether the anchor gives what ours does: the numbers and every word of the
/// buffers.
pub fn agrees(anchor: Check, ours: Check, call: &Call) -> bool {
    after(anchor, call) == after(ours, call)
}

fn after(check: Check, call: &Call) -> ((u32, [u32; 7]), Buffers) {
    let mut buffers = call.lengths.map(|length| vec![0x8000_0007; length]);
    let lent = lend(&mut buffers, call.lengths);
    let numbers = check(call.door, call.sheet, call.ceiling, call.limit, lent);
    (numbers, buffers)
}

#[cfg(not(anchor))]
mod linked {
    pub const ANCHOR: Option<super::Check> = None;
}

#[cfg(anchor)]
mod linked {
    use reference::oracle::Door;
    use reference::proved::{Check, Lent};

    pub const ANCHOR: Option<Check> = Some(check);

    extern "C" {
        fn anchor_check(
            sheet: *const u8,
            len: usize,
            ceiling: u32,
            limit: u32,
            strict: u32,
            board: *mut u32,
            book: *mut u32,
            report: *mut u32,
            result: *mut [u32; 7],
        ) -> u32;
    }

    fn check(
        door: Door,
        sheet: &[u8],
        ceiling: u32,
        limit: u32,
        [board, book, report]: Lent,
    ) -> (u32, [u32; 7]) {
        let mut result = [u32::MAX; 7];
        // The buffers have the lengths that a call wants, and there is one thread.
        let number = unsafe {
            anchor_check(
                sheet.as_ptr(),
                sheet.len(),
                ceiling,
                limit,
                (door == Door::Strict) as u32,
                board.as_mut_ptr(),
                book.as_mut_ptr(),
                report.as_mut_ptr(),
                &mut result,
            )
        };
        (number, result)
    }
}

#[cfg(test)]
mod tests {
    use super::{agrees, anchor_of};
    use reference::checks::Call;
    use reference::generate::{compared, random, scoped};
    use reference::oracle::{sizes, Door, LIMIT};
    use reference::proved::proved;
    use reference::sheet::write;

    /// The only test of the anchor: its room is for one call at a time.
    #[test]
    fn agrees_with_ours() {
        let ours = proved().expect("the proved checker").check;
        let made = random(5, 20_000).chain(scoped::random(5, 20_000));
        for made in made.chain(compared::random(5, 5000)) {
            let Some(anchor) = anchor_of(&made.lines) else {
                continue;
            };
            let sheet = write(&made.lines);
            for (door, limit) in [
                (Door::First, LIMIT),
                (Door::Strict, LIMIT),
                (Door::First, 9),
            ] {
                let call = Call {
                    door,
                    sheet: &sheet,
                    ceiling: made.ceiling,
                    limit,
                    lengths: sizes(limit),
                };
                let lines = &made.lines;
                assert!(agrees(anchor, ours, &call), "{door:?} {limit} {lines:?}");
            }
        }
    }
}
