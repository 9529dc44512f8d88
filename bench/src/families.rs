//! The families of plans. Each gives a plan of about so many lines, accepted at
//! 20, 200 and 2,000 (but for the long type that is refused). The limits on
//! fresh numbers and entries bound how long a term can be, so part of the lines
//! are types, entries, or arguments of a constructor, which no rule looks at.

use reference::generate::types::{app, arrow, forall, sized, Ty, INT};
use reference::generate::{limits, sheet};
use reference::oracle::Door;
use reference::sheet::{line, Line};
use reference::wall::long_sheet;
use std::collections::BTreeMap;

type Lines = Vec<Line>;
type Entries = BTreeMap<u32, Ty>;

pub struct Family {
    pub title: &'static str,
    pub door: Door,
    pub make: fn(usize) -> Lines,
}

const fn family(title: &'static str, make: fn(usize) -> Lines) -> Family {
    let door = Door::First;
    Family { title, door, make }
}

/// Put to the strict call, which accepts it too.
const fn strict(title: &'static str, make: fn(usize) -> Lines) -> Family {
    Family {
        door: Door::Strict,
        ..family(title, make)
    }
}

pub const PLAIN: [Family; 10] = [
    family("Lambdas", lambdas),
    family("long type, refused", long_sheet),
    family("long type", long_type),
    family("sum, left", sum_left),
    family("sum, right", sum_right),
    family("sum, flat", sum_flat),
    family("calls, left", calls_left),
    family("calls, right", calls_right),
    family("Case arms", arms),
    family("Constructor", constructor),
];

pub const QUANTIFIED: [Family; 5] = [
    family("Foralls", foralls),
    family("TypeLambdas", type_lambdas),
    family("identity", identities),
    family("Foralls compared", compared),
    family("lowered", lowered),
];

pub const STRICT: [Family; 2] = [
    strict("strict compared", compared),
    strict("strict lowered", lowered),
];

/// 7 as Int.
pub fn seven_as_int() -> Lines {
    plan(&[], &[], &INT, vec![seven()])
}

/// 1,000 fresh numbers exactly.
pub fn numbers() -> Lines {
    limits::numbers().swap_remove(0).made.lines
}

/// 10,000 entries exactly.
pub fn ceiling() -> Lines {
    limits::ceiling().swap_remove(0).made.lines
}

/// 4,096 nodes in one written-out type exactly.
pub fn written() -> Lines {
    limits::highest().swap_remove(0).made.lines
}

/// A Case whose patterns are compared, level by level, with a type that is small
/// on the sheet and large by its solutions.
pub fn large_by_solutions() -> Lines {
    const LEVELS: usize = 93;
    const ARMS: usize = 10;
    let spine = |part: &Ty, bottom: Ty| (0..LEVELS).fold(bottom, |ty, _| app(ty, part.clone()));
    let pair = |first: Ty, second: Ty| app(app(Ty::Con(30), first), second);
    let [one, two] = [Ty::Var(10), Ty::Var(11)];
    let pattern = forall(10, forall(11, pair(one.clone(), spine(&one, two.clone()))));
    let context = [
        (40, forall(10, pair(one.clone(), spine(&one, INT)))),
        (41, forall(11, pair(Ty::Product(vec![INT; 20]), two))),
    ];
    let mut term = vec![line(27, 0, ARMS as i64)];
    term.extend([
        line(29, 0, 0),
        line(28, 5, 0),
        seven(),
        seven(),
        var(40),
        var(41),
    ]);
    (0..ARMS).for_each(|_| term.extend([line(43, 20, 0), seven()]));
    plan(&[(20, pattern)], &context, &INT, term)
}

/// A solution of 60 unknowns that is given to 64 ever older unknowns, one after
/// the other, so that each lowers all levels in it; the book is nearly full.
pub fn lowered_again() -> Lines {
    let names = names(60);
    let product = Ty::Product(names.iter().map(|name| Ty::Var(*name)).collect());
    let open = names
        .into_iter()
        .rev()
        .fold(product, |ty, name| forall(name, ty));
    plan(&[(20, open)], &[], &INT, any_of(cases(62, made(0))))
}

/// 7 as Int beside 600 quantified entries, none of which it names.
pub fn catalogue_unnamed() -> Lines {
    plan(&quantified(600), &[], &INT, vec![seven()])
}

/// A sum of 330 quantified entries, each of which it names.
pub fn catalogue_named() -> Lines {
    let entries = quantified(330);
    let named = |(name, _): &(u32, Ty)| vec![line(26, *name as i64, 0)];
    let terms: Vec<Lines> = entries.iter().map(named).collect();
    plan(&entries, &[], &INT, flat(&terms))
}

/// So many constructors of ∀n10. n10.
fn quantified(count: usize) -> Vec<(u32, Ty)> {
    let any = forall(10, Ty::Var(10));
    names(count)
        .into_iter()
        .map(|name| (name, any.clone()))
        .collect()
}

fn plan(constructors: &[(u32, Ty)], context: &[(u32, Ty)], expected: &Ty, term: Lines) -> Lines {
    let entries = |list: &[(u32, Ty)]| list.iter().cloned().collect::<Entries>();
    sheet(&entries(constructors), &entries(context), expected, &term)
}

fn seven() -> Line {
    line(22, 7, 0)
}

fn var(name: u32) -> Line {
    line(21, name as i64, 0)
}

const ADD: Line = line(28, 1, 0);
const APPLY: Line = line(24, 0, 0);

/// Names of their own, so many.
fn names(count: usize) -> Vec<u32> {
    (100..100 + count as u32).collect()
}

/// How many parts fit beside the lines of the frame, one at least.
fn fitting(lines: usize, frame: usize, part: usize) -> usize {
    (lines.saturating_sub(frame) / part).max(1)
}

/// The constructor n20, an Int, with so many arguments, which no rule looks at.
fn made(arguments: usize) -> Lines {
    let head = line(26, 20, arguments as i64);
    [vec![head], vec![seven(); arguments]].concat()
}

/// ((first + second) + third) + ..
fn left_nest(terms: &[Lines]) -> Lines {
    [vec![ADD; terms.len() - 1], terms.concat()].concat()
}

/// first + (second + (third + ..))
fn right_nest(terms: &[Lines]) -> Lines {
    let (last, others) = terms.split_last().expect("a term");
    let others = others.iter().map(|term| [vec![ADD], term.clone()].concat());
    others.chain([last.clone()]).collect::<Vec<_>>().concat()
}

/// A sum of two halves, each made alike.
fn flat(terms: &[Lines]) -> Lines {
    if let [term] = terms {
        return term.clone();
    }
    let (left, right) = terms.split_at(terms.len() / 2);
    [vec![ADD], flat(left), flat(right)].concat()
}

/// So many Lambdas around 7, their parameters of the type given; the expected
/// type is made from Int on outwards.
fn nested_lambdas(levels: usize, parameter: &Ty, outwards: impl Fn(Ty, u32) -> Ty) -> Lines {
    let names = names(levels);
    let mut term = Vec::new();
    for name in &names {
        term.push(line(23, *name as i64, 0));
        term.extend(parameter.lines());
    }
    term.push(seven());
    let expected = names.into_iter().rev().fold(INT, outwards);
    plan(&[], &[], &expected, term)
}

/// Lambdas in Lambdas, as the Arrows that they are; each parameter is an Arrow.
fn lambdas(lines: usize) -> Lines {
    let parameter = arrow(INT, INT);
    let outwards = |to, _| arrow(parameter.clone(), to);
    nested_lambdas(fitting(lines, 4, 8), &parameter, outwards)
}

/// A variable of a long type, as that type.
fn long_type(lines: usize) -> Lines {
    let ty = sized(fitting(lines, 4, 2));
    plan(&[], &[(40, ty.clone())], &ty, vec![var(40)])
}

/// A sum of variables of their own.
fn sum(lines: usize, shape: fn(&[Lines]) -> Lines) -> Lines {
    let names = names(fitting(lines, 2, 4));
    let context: Vec<_> = names.iter().map(|name| (*name, INT)).collect();
    let terms: Vec<_> = names.iter().map(|name| vec![var(*name)]).collect();
    plan(&[], &context, &INT, shape(&terms))
}

/// A sum nested to the left, by twos: the board has room for 250 levels.
fn sum_left(lines: usize) -> Lines {
    sum(lines, |terms| {
        let (first, others) = terms.split_at(1);
        let pairs = others.chunks(2).map(left_nest);
        left_nest(&[first.to_vec(), pairs.collect()].concat())
    })
}

/// A sum nested to the right, by threes: the board has room for 168 levels.
fn sum_right(lines: usize) -> Lines {
    sum(lines, |terms| {
        let mut groups: Vec<_> = terms.rchunks(3).map(right_nest).collect();
        groups.reverse();
        right_nest(&groups)
    })
}

/// A sum as flat as can be.
fn sum_flat(lines: usize) -> Lines {
    sum(lines, flat)
}

/// A sum of calls, each of a function of its own with two products, both of
/// which are a variable of its own; there are fresh numbers for 83.
fn calls_left(lines: usize) -> Lines {
    let product = sized(4);
    let function = arrow(product.clone(), arrow(product.clone(), INT));
    let functions = names(fitting(lines, 2, 23).min(83));
    let argument = |name: u32| name + functions.len() as u32;
    let mut context = Vec::new();
    let mut terms = Vec::new();
    for name in &functions {
        let given = var(argument(*name));
        context.extend([
            (*name, function.clone()),
            (argument(*name), product.clone()),
        ]);
        terms.push(vec![APPLY, APPLY, var(*name), given, given]);
    }
    plan(&[], &context, &INT, left_nest(&terms))
}

/// Functions of their own, each on the next one's result, a product.
fn calls_right(lines: usize) -> Lines {
    let product = sized(6);
    let names = names(1 + lines.saturating_sub(22) / 16);
    let mut context = vec![(40, product.clone())];
    context.extend(names.iter().map(|name| {
        let to = match *name == names[0] {
            true => INT,
            false => product.clone(),
        };
        (*name, arrow(product.clone(), to))
    }));
    let mut term: Lines = names.iter().flat_map(|name| [APPLY, var(*name)]).collect();
    term.push(var(40));
    plan(&[], &context, &INT, term)
}

/// Cases with up to 99 arms, whose patterns bind three variables.
fn arms(lines: usize) -> Lines {
    const MOST: usize = 99;
    let arm = [
        line(43, 20, 3),
        line(42, 50, 0),
        line(42, 51, 0),
        line(42, 52, 0),
        var(50),
    ];
    let cases = 1 + lines / (MOST * arm.len() + 20);
    let arms = vec![arm; fitting(lines, 12 + 3 * cases, arm.len())];
    let case = |arms: &[[Line; 5]]| {
        let head = [line(27, 0, arms.len() as i64), line(26, 29, 0)];
        [&head[..], &arms.concat()].concat()
    };
    let terms: Vec<_> = arms.chunks(MOST).map(case).collect();
    let three = arrow(INT, arrow(INT, arrow(INT, Ty::Con(30))));
    let constructors = [(20, three), (29, Ty::Con(30))];
    plan(&constructors, &[], &INT, left_nest(&terms))
}

/// A constructor with many arguments, the last of which is one again; no rule
/// looks at them.
fn constructor(lines: usize) -> Lines {
    const MOST: usize = 98;
    fn term(lines: usize) -> Lines {
        if lines <= MOST + 1 {
            return made(lines - 1);
        }
        let mut outer = made(MOST);
        outer[0].count += 1;
        [outer, term(lines - MOST - 1)].concat()
    }
    plan(&[(20, INT)], &[], &INT, term(lines - 5))
}

/// Lambdas checked below a quantifier each: all quantifiers of the expected
/// type are opened, each through the rest of it.
fn foralls(lines: usize) -> Lines {
    let through = |name: u32| {
        let var = Ty::Var(name);
        arrow(var.clone(), arrow(INT, var))
    };
    let parameter = forall(10, through(10));
    let outwards = |to, name| forall(name, arrow(through(name), to));
    nested_lambdas(fitting(lines, 4, 14), &parameter, outwards)
}

/// TypeLambdas in TypeLambdas around a flat sum of constructors.
fn type_lambdas(lines: usize) -> Lines {
    let levels = names(lines * 2 / 25);
    let terms = fitting(lines, 4 + levels.len(), 6);
    let mut term: Lines = levels
        .iter()
        .map(|name| line(25, *name as i64, 0))
        .collect();
    term.extend(flat(&vec![made(4); terms]));
    plan(&[(20, INT)], &[], &INT, term)
}

/// A sum of calls of the polymorphic identity, each on a constructor.
fn identities(lines: usize) -> Lines {
    let var_10 = Ty::Var(10);
    let identity = forall(10, arrow(var_10.clone(), var_10));
    let call = [vec![APPLY, var(40)], made(10)].concat();
    let terms = vec![call; fitting(lines, 9, 14)];
    plan(&[(20, INT)], &[(40, identity)], &INT, left_nest(&terms))
}

/// A Case with no arm of a term of any type.
fn any_of(term: Lines) -> Lines {
    [vec![line(27, 0, 0)], term].concat()
}

/// A term in so many Cases with one arm: its type becomes the solution of an
/// older unknown at each.
fn cases(levels: usize, term: Lines) -> Lines {
    let case = [line(27, 0, 1), seven(), line(41, 0, 0)];
    [case.repeat(levels), term].concat()
}

/// A sum of constructors of their own, each a product of two unknowns, ten
/// times, which is given to three ever older unknowns.
fn lowered(lines: usize) -> Lines {
    let names = names(fitting(lines, 3, 20));
    let product = Ty::Product(vec![[Ty::Var(10), Ty::Var(11)]; 5].concat());
    let open = forall(10, forall(11, product));
    let entries: Vec<_> = names.iter().map(|name| (*name, open.clone())).collect();
    let term = |name: &u32| any_of(cases(1, vec![line(26, *name as i64, 0)]));
    let terms: Vec<_> = names.iter().map(term).collect();
    plan(&entries, &[], &INT, flat(&terms))
}

/// Lambdas whose parameters have quantified types, compared with others that
/// differ in the names alone.
fn compared(lines: usize) -> Lines {
    let constant = |first: u32, second: u32| {
        let from = arrow(Ty::Var(second), Ty::Var(first));
        forall(first, forall(second, arrow(Ty::Var(first), from)))
    };
    let outwards = |to, _| arrow(constant(12, 13), to);
    nested_lambdas(fitting(lines, 4, 16), &constant(10, 11), outwards)
}
