//! Hard sheets: the work of a checker on them is a product of things that a
//! sheet's author chooses.

use super::limits::{found, making_n30, seven, sheet, Found};
use super::types::{app, arrow, forall, Ty, INT};
use crate::oracle::{LIMIT, MOST_LIMIT};
use crate::sheet::{line, Line, MOST_LINES};

type Lines = Vec<Line>;

/// Of a Product's parts, a Case's arms, a pattern's parts.
const MOST: usize = 99;

const ADD: Line = line(28, 1, 0);
const WILDCARD: Line = line(41, 0, 0);
const N30: Ty = Ty::Con(30);

/// Each in two sizes. The titles start with the name of the kind.
pub fn plans() -> Vec<Found> {
    let usual = [
        ("H1 quantifiers 1320", quantifiers(1320, None)),
        ("H1 quantifiers 1400", quantifiers(1400, None)),
        ("H2 bound 195", bound(195, 4)),
        ("H2 bound 395", bound(395, 2)),
        ("H3 spines 899", spines(899, 150, 20)),
        ("H3 spines 957", spines(957, 300, 8)),
        ("H4 falling names 1000", falling(1000)),
        ("H4 falling names 2000", falling(2000)),
        ("H5 refused first 600", quantifiers(600, Some(UNBOUND))),
        ("H5 refused first 1300", quantifiers(1300, Some(UNBOUND))),
        ("H6 names abreast 60", abreast(60)),
        ("H6 names abreast 99", abreast(99)),
        ("H7 by solutions 1024", by_solutions(LIMIT, 70, 3)),
    ];
    let usual = usual.map(|(title, lines)| found(title, lines));
    let highest = Found {
        limit: MOST_LIMIT,
        ..found("H7 by solutions 1850", by_solutions(1850, 66, 1))
    };
    usual.into_iter().chain([highest]).collect()
}

/// A pattern of a constructor that is nowhere declared.
const UNBOUND: Line = line(43, 99, 0);

/// The names from 100 on, quantified in front of a type.
fn foralls(count: usize, ty: Ty) -> Ty {
    let names = (100..100 + count as u32).rev();
    names.fold(ty, |ty, name| forall(name, ty))
}

/// A Product of so many parts alike; if they are too many, of such Products.
fn product(part: Ty, count: usize) -> Ty {
    let parts = vec![part; count];
    if count <= MOST {
        return Ty::Product(parts);
    }
    let products = parts.chunks(MOST).map(|parts| Ty::Product(parts.to_vec()));
    Ty::Product(products.collect())
}

/// A left-nested App over Int; its right parts from the deepest on.
fn spine(rights: Vec<Ty>) -> Ty {
    rights.into_iter().fold(INT, app)
}

fn made(name: i64) -> Lines {
    vec![line(26, name, 0)]
}

fn case(scrutinee: Lines, arms: &[Lines]) -> Lines {
    let head = vec![line(27, 0, arms.len() as i64)];
    [head, scrutinee, arms.concat()].concat()
}

/// A pattern with its parts.
fn pattern(name: i64, parts: Lines) -> Lines {
    [vec![line(43, name, parts.len() as i64)], parts].concat()
}

/// Variables with names that fall from 9,999 on.
fn falling_variables(first: usize, count: usize) -> Lines {
    let names = (first..first + count).map(|at| 9999 - at as i64);
    names.map(|name| line(42, name, 0)).collect()
}

fn sum(terms: Vec<Lines>) -> Lines {
    [vec![ADD; terms.len() - 1], terms.concat()].concat()
}

/// How many lines a term can still have.
fn left(constructors: &[(u32, Ty)], lines: usize) -> usize {
    lines - sheet(constructors, &[], INT, Vec::new()).len()
}

/// H1: patterns inside patterns of a constructor with many quantifiers, the first
/// of which is named by many parts: each name is looked for among them all, and
/// the type is opened for each line of a pattern. H5: a pattern before them is
/// refused, so that nothing of this is due.
fn quantifiers(size: usize, before: Option<Line>) -> Lines {
    let names = size / 2;
    let parts = product(Ty::Var(100), size - names - 20);
    let constructors = [(20, foralls(names, arrow(parts, N30)))];
    let mut arms: Vec<Lines> = before.map(|line| vec![line, seven()]).into_iter().collect();
    let arm = [pattern(20, vec![line(43, 20, 0); MOST]), vec![seven()]].concat();
    let room = left(&constructors, MOST_LINES) - 2 - arms.concat().len();
    arms.extend(vec![arm.clone(); room / arm.len()]);
    sheet(&constructors, &[], INT, case(vec![seven()], &arms))
}

/// H2: Cases whose pattern binds all 99 parts of a constructor with quantifiers:
/// the type is opened for each of them.
fn bound(names: usize, cases: usize) -> Lines {
    let parts = vec![product(Ty::Var(100), 10); MOST];
    let constructors = [(20, foralls(names, making_n30(&parts))), (22, N30)];
    let variables = (500..500 + MOST as i64).map(|name| line(42, name, 0));
    let arm = [pattern(20, variables.collect()), vec![seven()]].concat();
    let term = sum(vec![case(made(22), &[arm]); cases]);
    sheet(&constructors, &[], INT, term)
}

/// H3: long types that differ deep inside, compared level by level in every arm.
fn spines(nodes: usize, depth: usize, cases: usize) -> Lines {
    let levels = (nodes - 1) / 2;
    let with = |part: Ty| {
        let mut rights = vec![INT; levels];
        rights[levels - depth] = part;
        spine(rights)
    };
    let constructors = [
        (20, forall(10, with(Ty::Var(10)))),
        (21, making_n30(&[with(INT)])),
        (29, N30),
    ];
    let arm = [pattern(21, vec![line(43, 20, 0)]), vec![seven()]].concat();
    let term = sum(vec![case(made(29), &[arm.clone(), arm]); cases]);
    sheet(&constructors, &[], INT, term)
}

/// H4: one pattern whose variables have falling names, so that each comes before
/// all that are bound; the 99th part of each constructor is one again.
fn falling(lines: usize) -> Lines {
    let constructors = [(21, making_n30(&vec![N30; MOST])), (29, N30)];
    let mut room = left(&constructors, lines) - 3;
    let (mut arm, mut bound) = (Vec::new(), 0);
    while room > MOST {
        let last = room < 2 * (MOST + 1);
        let variables = MOST - usize::from(!last);
        arm.push(line(43, 21, MOST as i64));
        arm.extend(falling_variables(bound, variables));
        bound += variables;
        room -= variables + 1;
    }
    arm.push(seven());
    sheet(&constructors, &[], INT, case(made(29), &[arm]))
}

/// H6: the same names, the constructors side by side in one: the Rust, which puts
/// the bindings of a part into those of the whole, does so twice and not 17 times.
fn abreast(width: usize) -> Lines {
    let constructors = [(21, making_n30(&vec![N30; width])), (29, N30)];
    let room = left(&constructors, MOST_LINES) - 4;
    let groups = (room - width) / width;
    let mut parts: Lines = Vec::new();
    for group in 0..groups {
        parts.extend(pattern(21, falling_variables(group * width, width)));
    }
    parts.extend(vec![WILDCARD; width - groups]);
    let arm = [vec![line(43, 21, width as i64)], parts, vec![seven()]].concat();
    sheet(&constructors, &[], INT, case(made(29), &[arm]))
}

/// H7: as H3, but most nodes of the types come from solutions, up to the limit:
/// fewer lines, and no type gets much shorter while it is taken apart.
fn by_solutions(nodes: u32, comparisons: usize, arms: usize) -> Lines {
    const LEVELS: usize = 60;
    const SOLUTION: usize = 27;
    // A copy and its App, after all that is no copy.
    let copies = (nodes as usize - 2 * LEVELS - 4) / (SOLUTION + 1) - 1;
    let with = |part: Ty, copied: Ty| {
        let mut rights = vec![copied.clone(); copies];
        rights.push(part);
        rights.extend(vec![INT; LEVELS]);
        // Both sides have their copies solved by the first level.
        rights.push(copied);
        spine(rights)
    };
    let [part, copied, wanted] = [10, 11, 12].map(Ty::Var);
    let compared = making_n30(&[with(INT, wanted.clone()), wanted]);
    let constructors = [
        (20, forall(10, forall(11, with(part, copied)))),
        (21, forall(12, compared)),
        (22, product(INT, SOLUTION - 1)),
        (29, N30),
    ];
    let arm = pattern(21, vec![line(43, 20, 0), line(43, 22, 0)]);
    let arm = [arm, vec![seven()]].concat();
    let cases = vec![arm; comparisons];
    let cases = cases.chunks(arms).map(|arms| case(made(29), arms));
    sheet(&constructors, &[], INT, sum(cases.collect()))
}
