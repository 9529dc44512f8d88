//! Measures `check_type` of the Rust and of the proved checker in one process
//! on the same plans.

mod anchor;
mod clock;
mod families;
mod floor;
mod measure;
mod plans;
mod readers;
mod table;
mod targets;
mod writers;

use anchor::{agrees, anchor_of};
use measure::{in_a_row, measure, Turns, FULL, QUICK};
use plans::{plans, Plan};
use reference::checks::{put, Call};
use reference::oracle::{sizes, MOST_STEPS};
use reference::proved::{proved, Check};
use reference::sheet::{read, write};
use reference::with_stack;
use std::io::Write;
use std::process::ExitCode;
use table::Row;
use targets::ROW;

const USAGE: &str = "usage: bench [--quick] [--only TEXT] [--sheets]
  --quick      fewer turns
  --only TEXT  the plans with the text in their title
  --sheets     writes the sheets and measures nothing";

struct Options {
    turns: Turns,
    only: String,
    sheets: bool,
}

fn options() -> Option<Options> {
    let mut options = Options {
        turns: FULL,
        only: String::new(),
        sheets: false,
    };
    let mut words = std::env::args().skip(1);
    while let Some(word) = words.next() {
        match word.as_str() {
            "--quick" => options.turns = QUICK,
            "--only" => options.only = words.next()?,
            "--sheets" => options.sheets = true,
            _ => return None,
        }
    }
    Some(options)
}

fn main() -> ExitCode {
    let Some(options) = options() else {
        eprintln!("{USAGE}");
        return ExitCode::from(2);
    };
    with_stack(move || match run(&options) {
        Ok(()) => ExitCode::SUCCESS,
        Err(message) => {
            eprintln!("{message}");
            ExitCode::FAILURE
        }
    })
}

fn run(options: &Options) -> Result<(), String> {
    let mut plans = plans();
    plans.retain(|plan| plan.title.contains(&options.only));
    if options.sheets {
        let sheets: Vec<u8> = plans.iter().flat_map(|plan| write(&plan.lines)).collect();
        let written = std::io::stdout().write_all(&sheets);
        return written.map_err(|error| error.to_string());
    }
    let proved = proved().ok_or("the proved checker is not linked")?;
    table::print_heads(options.turns.total);
    let mut rows = Vec::new();
    for plan in plans {
        let row = row(options.turns, proved.check, plan)?;
        row.print();
        rows.push(row);
    }
    targets::print(&rows);
    print_in_a_row(proved.check, &rows);
    if options.only.is_empty() {
        readers::print(options.turns, proved.read);
        writers::print(options.turns, &proved)?;
    }
    Ok(())
}

/// The whole call of a plan.
fn call<'a>(plan: &Plan, sheet: &'a [u8]) -> Call<'a> {
    Call {
        door: plan.door,
        sheet,
        ceiling: MOST_STEPS,
        limit: plan.limit,
        lengths: sizes(plan.limit),
    }
}

/// Puts a plan to both and to the anchor, then measures it; an error if the
/// answers differ.
fn row(turns: Turns, check: Check, plan: Plan) -> Result<Row, String> {
    let sheet = write(&plan.lines);
    let call = call(&plan, &sheet);
    let title = &plan.title;
    let put = put(check, &call, 1);
    if !put.same {
        let (rust, ours) = (put.answer.seven(), put.seven);
        return Err(format!(
            "{title}: numbers or buffers differ: the Rust {rust:?}, ours {ours:?}"
        ));
    }
    let anchor = anchor_of(&plan.lines);
    if anchor.is_some_and(|anchor| !agrees(anchor, check, &call)) {
        return Err(format!("{title}: numbers or buffers of the anchor differ"));
    }
    let trees = read(&sheet).map_err(|refusal| format!("{title}: {refusal:?}"))?;
    let measured = measure(turns, check, anchor, &trees, &call);
    Ok(Row {
        plan,
        answer: put.answer,
        measured,
    })
}

/// As many calls of the dearest hard sheet as a shop's set has plans.
fn print_in_a_row(check: Check, rows: &[Row]) {
    let hard = rows.iter().filter(|row| row.plan.hard);
    if let Some(row) = hard.max_by_key(|row| row.measured.ours.minimum) {
        let sheet = write(&row.plan.lines);
        let time = in_a_row(ROW, check, &call(&row.plan, &sheet));
        targets::print_in_a_row(&row.plan.title, time);
    }
}
