//! The proved writer beside its reader on the same sheet, the one of `reference`,
//! and a plain loop, which looks at no grammar.

use crate::clock::time;
use crate::floor;
use crate::measure::{by_turns, Turns};
use crate::plans::SIZES;
use reference::proved::Proved;
use reference::sheet::{write, Line};
use reference::wall::long_sheet;
use reference::writes::{needed, words_of, write_call};
use std::hint::black_box;

/// An error if what is written differs.
pub fn print(turns: Turns, proved: &Proved) -> Result<(), String> {
    println!("\nWriting a sheet with a long type, minimums.");
    println!("Reading: our reader, on that sheet. format! and floor: the lines alone, by it and by a plain loop.\n");
    println!(
        "{:>5} {:>10} {:>10} {:>10} {:>10} {:>10}",
        "lines", "reference", "ours", "reading", "format!", "floor"
    );
    for lines in SIZES {
        print_row(turns, proved, long_sheet(lines))?;
    }
    Ok(())
}

fn print_row(turns: Turns, proved: &Proved, lines: Vec<Line>) -> Result<(), String> {
    let count = lines.len();
    let sheet = write(&lines);
    let words = words_of(lines.clone());
    let mut outs: [Vec<u8>; 3] = std::array::from_fn(|_| vec![0; needed(&words)]);
    let [other, ours, plain] = &mut outs;
    let times = by_turns(
        turns,
        [
            &mut || time(|| write_call(black_box(&words), other)),
            &mut || time(|| (proved.write)(black_box(&words), ours)),
            &mut || time(|| (proved.read)(black_box(&sheet))),
            &mut || time(|| write(black_box(&lines))),
            &mut || time(|| floor::write(black_box(&words), plain)),
        ],
    );
    if outs.iter().any(|out| *out != sheet) {
        return Err(format!("{count} lines are written differently"));
    }
    let times = times.map(|times| format!(" {:>10.2?}", times.minimum));
    println!("{count:5}{}", times.concat());
    Ok(())
}
