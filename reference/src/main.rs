//! Puts plans to the Rust module and gives its answers.

use reference::checks::expected;
use reference::generate::limits::{self, Found};
use reference::generate::{self, catalogue, compared, hard, scoped, small, Made};
use reference::oracle::{
    answer_call, answer_lines, answer_sheet, sizes, under_limit, Answer, Door, LIMIT, MOST_STEPS,
};
use reference::plan::Node;
use reference::writes::{needed, write_call};
use reference::{compare, listing, raws, readers, record, wall, with_stack, writes};
use std::collections::BTreeMap;
use std::fmt::Display;
use std::io::{Read, Write};
use std::process::ExitCode;

const USAGE: &str = "usage: reference COMMAND
  answer [--strict] [--ceiling N] [--limit W] [--lengths B,K,R] [--words]
                                       the answer to a call, the first or the strict one, with the
                                       sheet on standard input and buffers of so many words; with
                                       --words also the report's words after it, each of which was 7
  answer [--strict] [--ceiling N] --limits E,N,W,F,S
                                       the answer to the sheet under other limits
  generate --seed S --count N [--kind random|small|limits|picked|hard|compared|catalogue|scoped] [--answers] [--strict] [--limits E,N,W,F,S]
                                       plans, one a line, in the format of src/record.rs, for the
                                       first or the strict call; other limits: entries, nodes,
                                       written out, fresh, solutions
  record --out FILE                    the recorded list of plans and answers
  raw-checks --list FILE               the raw records of a list beside the proved checker
  wall                                 document 01's plans on the wall
  readers --seed S --count N           this reader beside the proved one
  writes --seed S --count N [--list FILE]
                                       this writer beside the proved one, on random plans, half of
                                       them damaged; the plans of a recorded list written again
  write                                the sheet of the listing on standard input, or what is wrong
                                       with it, as plan_write says it
  write-call [--out BYTES]             the answer to a writing call with the words on standard
                                       input, blanks between, and an output of so many bytes, each
                                       of which was a dot; then these bytes
  checks --seed S --count N --damaged M
                                       the Rust beside the proved checker: random plans, damaged
                                       sheets, the wall, the limits, hard sheets, small plans, short
                                       buffers, limits that a caller picks, comparisons, catalogues,
                                       and quantified plans under both calls
  stats --seed S --count N [--kind random|scoped] [--strict]
                                       the share of each number among random plans";

fn main() -> ExitCode {
    let arguments: Vec<String> = std::env::args().skip(1).collect();
    with_stack(move || match command(&arguments) {
        Ok(true) => ExitCode::SUCCESS,
        Ok(false) => ExitCode::FAILURE,
        Err(message) => {
            eprintln!("{message}\n{USAGE}");
            ExitCode::from(2)
        }
    })
}

/// The words after the command: `--name value`, or a `--name` alone.
struct Options<'a>(&'a [String]);

impl Options<'_> {
    fn text(&self, name: &str) -> Option<&str> {
        let at = self.0.iter().position(|word| word == name)?;
        self.0.get(at + 1).map(String::as_str)
    }

    fn has(&self, name: &str) -> bool {
        self.0.iter().any(|word| word == name)
    }

    fn door(&self) -> Door {
        match self.has("--strict") {
            true => Door::Strict,
            false => Door::First,
        }
    }

    fn number<T: std::str::FromStr>(&self, name: &str, default: Option<T>) -> Result<T, String> {
        match (self.text(name), default) {
            (Some(text), _) => text.parse().map_err(|_| format!("{name}: not a number")),
            (None, Some(default)) => Ok(default),
            (None, None) => Err(format!("{name} is lacking")),
        }
    }
}

/// True if all is well.
fn command(arguments: &[String]) -> Result<bool, String> {
    let (name, rest) = arguments.split_first().ok_or("no command")?;
    let options = Options(rest);
    match name.as_str() {
        "answer" => answer(&options),
        "generate" => generate_plans(&options),
        "record" => record_list(options.text("--out").ok_or("--out is lacking")?),
        "raw-checks" => raw_checks(options.text("--list").ok_or("--list is lacking")?),
        "wall" => Ok(wall::check()),
        "readers" => Ok(readers::compare(
            options.number("--seed", None)?,
            options.number("--count", None)?,
        )),
        "writes" => compare_writers(&options),
        "write" => write_listing(),
        "write-call" => answer_writing(&options),
        "checks" => Ok(compare::compare(
            options.number("--seed", None)?,
            options.number("--count", None)?,
            options.number("--damaged", None)?,
        )),
        "stats" => stats(&options),
        _ => Err(format!("unknown command {name}")),
    }
}

fn input() -> Result<Vec<u8>, String> {
    let mut bytes = Vec::new();
    let read = std::io::stdin().read_to_end(&mut bytes);
    read.map_err(|error| error.to_string())?;
    Ok(bytes)
}

fn output(bytes: &[u8]) -> Result<bool, String> {
    let written = std::io::stdout().write_all(bytes);
    written.map_err(|error| error.to_string())?;
    Ok(true)
}

fn answer(options: &Options) -> Result<bool, String> {
    let sheet = input()?;
    let ceiling = options.number("--ceiling", Some(MOST_STEPS))?;
    if options.has("--limits") {
        set_limits(options)?;
        show_answer(&answer_sheet(options.door(), &sheet, ceiling));
        return Ok(true);
    }
    let limit = options.number("--limit", Some(LIMIT))?;
    let lengths = numbers(options, "--lengths")?.unwrap_or(sizes(limit));
    let answer = answer_call(options.door(), &sheet, ceiling, limit, lengths);
    show_answer(&answer);
    if options.has("--words") {
        let [_, _, report] = expected(&answer, limit, &lengths.map(|length| vec![7; length]));
        let words: Vec<_> = report.iter().map(u32::to_string).collect();
        println!("words {}", words.join(" "));
    }
    Ok(true)
}

fn show_answer(answer: &Answer) {
    println!("{}", columns(answer.seven()));
    println!("report{}", spelt(&answer.report));
    for (unknown, nodes) in &answer.solutions {
        println!("^{unknown} :={}", spelt(nodes));
    }
    let levels = answer.levels.iter().map(|level| format!(" {level}"));
    println!("levels{}", levels.collect::<String>());
}

fn columns(seven: [u32; 7]) -> String {
    seven.map(|number| format!("{number:6}")).concat()
}

fn spelt(nodes: &[Node]) -> String {
    let node = |(kind, value): &Node| format!(" {kind} {value}");
    nodes.iter().map(node).collect()
}

/// So many numbers with commas between, where they are given.
fn numbers<const N: usize>(options: &Options, name: &str) -> Result<Option<[usize; N]>, String> {
    let Some(text) = options.text(name) else {
        return Ok(None);
    };
    let parsed: Result<Vec<usize>, _> = text.split(',').map(str::parse).collect();
    let numbers = parsed.ok().and_then(|numbers| numbers.try_into().ok());
    let numbers = numbers.ok_or_else(|| format!("{name}: {N} numbers with commas between"))?;
    Ok(Some(numbers))
}

/// Five numbers, in the order of `limited`'s constants, where they are given.
fn set_limits(options: &Options) -> Result<(), String> {
    if let Some(limits) = numbers(options, "--limits")? {
        limited::set_limits(limits);
    }
    Ok(())
}

/// The plans themselves are made under document 01's limits.
fn generate_plans(options: &Options) -> Result<bool, String> {
    match options.text("--kind").unwrap_or("random") {
        "random" => show_random(options, generate::random)?,
        "small" => show_spread(options, &small::plans())?,
        "limits" => show_found(options, &limits::plans())?,
        "picked" => show_found(options, &limits::picked())?,
        "hard" => show_found(options, &hard::plans())?,
        "compared" => show_made(options, compared::plans(), compared::random)?,
        "catalogue" => show_made(options, catalogue::plans(), catalogue::random)?,
        "scoped" => show_made(options, scoped::plans(), scoped::random)?,
        other => return Err(format!("unknown kind {other}")),
    }
    Ok(true)
}

fn show_random<I: Iterator<Item = Made>>(
    options: &Options,
    random: impl Fn(u64, usize) -> I,
) -> Result<(), String> {
    set_limits(options)?;
    let (seed, count) = (
        options.number("--seed", None)?,
        options.number("--count", None)?,
    );
    random(seed, count).for_each(|made| show(options, &made));
    Ok(())
}

/// All of them, or so many from first to last.
fn show_spread(options: &Options, plans: &[Made]) -> Result<(), String> {
    set_limits(options)?;
    let count = options.number("--count", Some(plans.len()))?;
    let count = count.min(plans.len());
    (0..count).for_each(|at| show(options, &plans[at * plans.len() / count]));
    Ok(())
}

/// Those made for it and, where a seed is given, random ones.
fn show_made<T: Display, I: Iterator<Item = Made>>(
    options: &Options,
    plans: Vec<(T, Made)>,
    random: impl Fn(u64, usize) -> I,
) -> Result<(), String> {
    set_limits(options)?;
    for (title, made) in plans {
        println!("# {title}");
        show(options, &made);
    }
    match options.has("--seed") {
        true => show_random(options, random),
        false => Ok(()),
    }
}

fn show_found(options: &Options, plans: &[Found]) -> Result<(), String> {
    set_limits(options)?;
    for Found { title, made, limit } in plans {
        println!("# {title}");
        under_limit(*limit, || show(options, made));
    }
    Ok(())
}

fn show(options: &Options, made: &Made) {
    let line = match options.has("--answers") {
        true => record::answered_line(options.door(), made),
        false => record::plan_line(options.door(), made),
    };
    // A reader that has seen enough closes the pipe.
    if writeln!(std::io::stdout(), "{line}").is_err() {
        std::process::exit(0);
    }
}

fn record_list(path: &str) -> Result<bool, String> {
    let list = record::list();
    let plans = list.lines().filter(|line| !line.starts_with('#')).count();
    std::fs::write(path, &list).map_err(|error| format!("{path}: {error}"))?;
    println!("{plans} plans, {} bytes", list.len());
    Ok(true)
}

fn raw_checks(path: &str) -> Result<bool, String> {
    Ok(raws::compare(&read_text(path)?))
}

fn read_text(path: &str) -> Result<String, String> {
    std::fs::read_to_string(path).map_err(|error| format!("{path}: {error}"))
}

fn compare_writers(options: &Options) -> Result<bool, String> {
    let list = options.text("--list").map(read_text).transpose()?;
    Ok(writes::compare(
        options.number("--seed", None)?,
        options.number("--count", None)?,
        list.as_deref(),
    ))
}

fn write_listing() -> Result<bool, String> {
    output(&listing::written(&input()?))
}

fn answer_writing(options: &Options) -> Result<bool, String> {
    let input = String::from_utf8(input()?).map_err(|error| error.to_string())?;
    let words: Result<Vec<i64>, _> = input.split_ascii_whitespace().map(str::parse).collect();
    let words = words.map_err(|error| error.to_string())?;
    let mut out = vec![b'.'; options.number("--out", Some(needed(&words)))?];
    println!("{}", columns(write_call(&words, &mut out)));
    output(&out)
}

fn stats(options: &Options) -> Result<bool, String> {
    let (seed, count) = (
        options.number("--seed", None)?,
        options.number("--count", None)?,
    );
    match options.text("--kind").unwrap_or("random") {
        "random" => show_shares(options.door(), generate::random(seed, count)),
        "scoped" => show_shares(options.door(), scoped::random(seed, count)),
        other => return Err(format!("no random plans of kind {other}")),
    }
    Ok(true)
}

fn show_shares(door: Door, plans: impl Iterator<Item = Made>) {
    let (mut numbers, mut count) = (BTreeMap::new(), 0);
    for made in plans {
        let number = answer_lines(door, &made.lines, made.ceiling).number;
        *numbers.entry(number).or_insert(0) += 1;
        count += 1;
    }
    for (number, plans) in numbers {
        let share = 100.0 * plans as f64 / count as f64;
        println!("{number:3} {plans:8} {share:6.2} %");
    }
}
