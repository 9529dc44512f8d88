//! Sheets by their length: bytes up to a line and some, plans that are legal at
//! every length around the most lines, and misspelt lines among these.

use super::{lines, Sheet};
use crate::generate::sized;
use crate::sheet::{line, write, Line, LINE, MOST_LINES};
use crate::wall::long_sheet;

pub fn sheets() -> Vec<Sheet> {
    [
        few_bytes(),
        few_lines(),
        many_lines(),
        off_by_one(),
        misspelt(),
    ]
    .concat()
}

/// No byte up to two lines and one, from a good sheet, of blanks and of zeros.
fn few_bytes() -> Vec<Sheet> {
    let good = type_lambdas(5);
    let sizes = [0, 1, 2, 27, 28, 29, 30, 31, 57, 58, 59];
    let texts = [write(&good), vec![b' '; 59], vec![0; 59]];
    let cut = texts
        .iter()
        .flat_map(|text| sizes.map(|size| text[..size].to_vec()));
    cut.collect()
}

type Form = fn(usize) -> Vec<Line>;

/// Plans of just so many lines: accepted ones first, then 23, 22 and 24.
const FORMS: [Form; 8] = [
    entries,
    unread,
    parameter,
    context,
    long_sheet,
    type_lambdas,
    right_sum,
    left_sum,
];

/// The first lines of each form, which are no plan, and the shortest plans.
fn few_lines() -> Vec<Sheet> {
    let cut = FORMS.iter().flat_map(|form| {
        let long = form(40);
        (1..=6).map(move |count| write(&long[..count]))
    });
    let whole = (4..=8).map(|count| write(&type_lambdas(count)));
    cut.chain(whole).collect()
}

fn many_lines() -> Vec<Sheet> {
    let counts = [MOST_LINES - 1, MOST_LINES, MOST_LINES + 1];
    let plans = FORMS.iter().flat_map(|form| counts.map(form));
    let plans = plans.map(|lines| write(&lines));
    plans.chain([write(&unread(MOST_LINES + 2))]).collect()
}

/// A byte less and a byte more than 1, 5 and 2,000 lines.
fn off_by_one() -> Vec<Sheet> {
    let sheets = [1, 5, MOST_LINES].map(|count| write(&unread(MOST_LINES)[..count]));
    let short = sheets.iter().map(|sheet| sheet[..sheet.len() - 1].to_vec());
    let longer = |byte: u8| sheets.clone().map(|sheet| [sheet, vec![byte]].concat());
    short
        .chain([b'\n', b' ', 0].into_iter().flat_map(longer))
        .collect()
}

/// The first line, the last, one within and two of 2,000; a line out of place
/// before it; a misspelt line of too many.
fn misspelt() -> Vec<Sheet> {
    let good = write(&unread(MOST_LINES));
    let bad = |at: &[usize], mut sheet: Sheet| {
        at.iter().for_each(|line| sheet[line * LINE - 1] = b'\r');
        sheet
    };
    let mut out_of_place = good.clone();
    out_of_place[..3].copy_from_slice(b"  5");
    let places: [&[usize]; 6] = [&[1], &[2], &[1000], &[1999], &[2000], &[1000, 2000]];
    let misspelt = places.iter().map(|at| bad(at, good.clone()));
    let others = [
        bad(&[2000], out_of_place.clone()),
        out_of_place,
        bad(&[1], write(&unread(MOST_LINES + 1))),
    ];
    misspelt.chain(others).collect()
}

const SEVEN: Line = line(22, 7, 0);
const INT: Line = line(12, 1, 0);

/// 7 as Int after entries of one kind.
fn with_entries(kind: i64, count: usize) -> Vec<Line> {
    let room = count - 4;
    let mut plan = Vec::with_capacity(count);
    for name in 1..=room / 2 {
        plan.extend([line(kind, name as i64, 0), INT]);
    }
    if room % 2 == 1 {
        plan.insert(1, line(14, 1, 0));
    }
    plan.extend(lines(&[3, 0, 0, 12, 1, 0, 4, 0, 0, 22, 7, 0]));
    plan
}

fn entries(count: usize) -> Vec<Line> {
    with_entries(1, count)
}

fn context(count: usize) -> Vec<Line> {
    with_entries(2, count)
}

/// A constructor with arguments, which are not looked at.
fn unread(count: usize) -> Vec<Line> {
    let head = lines(&[1, 20, 0, 12, 30, 0, 3, 0, 0, 12, 30, 0, 4, 0, 0]);
    let term = nested(count - head.len());
    [head, term].concat()
}

/// A term of so many lines: constructors of sevens and one constructor more.
fn nested(count: usize) -> Vec<Line> {
    let sevens = (count - 1).min(98);
    let rest = count - 1 - sevens;
    let mut term = vec![line(26, 20, sevens as i64 + i64::from(rest > 0))];
    term.extend(vec![SEVEN; sevens]);
    if rest > 0 {
        term.extend(nested(rest));
    }
    term
}

/// A Lambda with a large parameter type, as a function of that type.
fn parameter(count: usize) -> Vec<Line> {
    let ty = sized((count - 6) / 2).lines();
    let body: &[Line] = match count % 2 {
        0 => &[SEVEN],
        _ => &[line(27, 0, 0), SEVEN],
    };
    let head = [line(3, 0, 0), line(13, 0, 0)];
    let term = [INT, line(4, 0, 0), line(23, 10, 0)];
    [&head[..], &ty, &term, &ty, body].concat()
}

/// A term as Int.
fn as_int(term: Vec<Line>) -> Vec<Line> {
    [vec![line(3, 0, 0), INT, line(4, 0, 0)], term].concat()
}

fn type_lambdas(count: usize) -> Vec<Line> {
    as_int([vec![line(25, 1, 0); count - 4], vec![SEVEN]].concat())
}

/// 7 + (7 + ..), below a type abstraction if the count asks for it.
fn right_sum(count: usize) -> Vec<Line> {
    let levels = (count - 4) / 2;
    let above = vec![line(25, 1, 0); count % 2];
    as_int([above, [line(28, 1, 0), SEVEN].repeat(levels), vec![SEVEN]].concat())
}

/// (.. + 7) + 7, likewise.
fn left_sum(count: usize) -> Vec<Line> {
    let levels = (count - 4) / 2;
    let above = vec![line(25, 1, 0); count % 2];
    as_int([above, vec![line(28, 1, 0); levels], vec![SEVEN; levels + 1]].concat())
}
