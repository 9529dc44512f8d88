//! The proved reader beside the one of `reference`, which makes trees, and the
//! plain loop of the floor, which looks at the spelling alone.

use crate::clock::time;
use crate::floor;
use crate::measure::{by_turns, Turns};
use crate::plans::SIZES;
use reference::proved::Read;
use reference::sheet::{self, write};
use reference::wall::long_sheet;
use std::hint::black_box;

pub fn print(turns: Turns, read: Read) {
    println!("\nReading a sheet with a long type, minimums:\n");
    println!(
        "{:>5} {:>10} {:>10} {:>10}",
        "lines", "reference", "ours", "floor"
    );
    for lines in SIZES {
        let sheet = write(&long_sheet(lines));
        let [trees, ours, plain] = by_turns(
            turns,
            [
                &mut || time(|| sheet::read(black_box(&sheet))),
                &mut || time(|| read(black_box(&sheet))),
                &mut || time(|| floor::read(black_box(&sheet))),
            ],
        )
        .map(|times| times.minimum);
        println!("{lines:5} {trees:>10.2?} {ours:>10.2?} {plain:>10.2?}");
    }
}
