//! Plans about levels and scope: those made for it, and random ones with
//! quantifiers inside their types.

use super::types::{app, arrow, forall, Ty, INT};
use super::{open, related, sheet, splits, Made};
use crate::oracle::MOST_STEPS;
use crate::random::Random;
use crate::sheet::{line, Line};
use std::collections::BTreeMap;

type Lines = Vec<Line>;
type Titled = Vec<(&'static str, Made)>;

/// By what they show.
pub fn plans() -> Vec<(String, Made)> {
    let made = [given(), older(), inherited(), lowered(), first_refused()].concat();
    let made = made.into_iter().map(|(title, made)| (title.into(), made));
    made.chain(splits::plans()).collect()
}

fn asked(context: &[(u32, Ty)], expected: Ty, term: Lines) -> Made {
    let context = context.iter().cloned().collect();
    Made {
        ceiling: MOST_STEPS,
        lines: sheet(&BTreeMap::new(), &context, &expected, &term),
    }
}

fn bound(name: u32) -> Ty {
    Ty::Var(name)
}

fn product<const N: usize>(parts: [Ty; N]) -> Ty {
    Ty::Product(parts.into())
}

fn in_n31(ty: Ty) -> Ty {
    app(Ty::Con(31), ty)
}

fn in_n32(first: Ty, second: Ty) -> Ty {
    app(app(Ty::Con(32), first), second)
}

/// 7 in a Case with no arm, which has any type.
fn any() -> Lines {
    vec![line(27, 0, 0), line(22, 7, 0)]
}

fn any_as(expected: Ty) -> Made {
    asked(&[], expected, any())
}

/// Int → ∀n11. of a type.
fn to_all(ty: Ty) -> Ty {
    arrow(INT, forall(11, ty))
}

/// W12's own, and the first of them under ceilings around its refused step.
pub fn given() -> Titled {
    let same = to_all(bound(11));
    let open = [(46, forall(12, bound(12)))];
    let within = product([bound(11), forall(12, bound(12))]);
    let under = |ceiling| Made {
        ceiling,
        ..any_as(to_all(bound(11)))
    };
    vec![
        (
            "a Case with no arm as Int → ∀n11. n11",
            any_as(same.clone()),
        ),
        (
            "n46 : ∀n12. n12 as the same",
            asked(&open, same, vec![line(21, 46, 0)]),
        ),
        (
            "a quantifier in the solution comes first",
            any_as(to_all(within)),
        ),
        ("the ceiling after the refused step", under(11)),
        ("before it", under(10)),
        ("after the split", under(9)),
    ]
}

/// Universals from before the unknown, and beside newer ones.
fn older() -> Titled {
    let both = |parts| forall(10, to_all(product(parts)));
    let alone = |ty| forall(10, arrow(INT, ty));
    vec![
        ("an older universal", any_as(forall(10, bound(10)))),
        ("for a part of the unknown", any_as(alone(bound(10)))),
        ("twice", any_as(alone(product([bound(10), bound(10)])))),
        ("before a newer one", any_as(both([bound(10), bound(11)]))),
        ("after a newer one", any_as(both([bound(11), bound(10)]))),
    ]
}

/// Unknowns that are newer than the universal, parts of older ones.
fn inherited() -> Titled {
    let rank = |ty| [(47, arrow(forall(11, ty), INT))];
    let call = |function: Lines| [vec![line(24, 0, 0)], function, any()].concat();
    let named = || vec![line(21, 47, 0)];
    let twice = arrow(bound(11), bound(11));
    vec![
        (
            "a part of a part, of an Arrow",
            any_as(to_all(twice.clone())),
        ),
        ("of a type App", any_as(to_all(in_n31(bound(11))))),
        (
            "a function that takes ∀n11. n11, applied",
            asked(&rank(bound(11)), INT, call(named())),
        ),
        (
            "one that takes ∀n11. n11 → n11",
            asked(&rank(twice), INT, call(named())),
        ),
        (
            "a result of what was applied",
            asked(&[], to_all(bound(11)), call(any())),
        ),
    ]
}

/// A function whose parameter has the first type, as one that takes the second:
/// the two are compared as they are.
fn compared((first, second): (Ty, Ty)) -> Lines {
    let mut term = vec![line(23, 70, 0)];
    term.extend(first.lines());
    term.push(line(22, 7, 0));
    let none = BTreeMap::new();
    sheet(&none, &none, &arrow(second, INT), &term)
}

/// (∀n12. ∀n13. small) → Int against ∀n10. (∀n11. large) → Int: n10 is an unknown
/// older than the universal n11, n12 and n13 are newer ones.
fn leaving(small: Ty, large: Ty) -> Made {
    let left = forall(10, arrow(forall(11, large), INT));
    let right = arrow(forall(12, forall(13, small)), INT);
    Made {
        ceiling: MOST_STEPS,
        lines: compared((left, right)),
    }
}

/// Unknowns that are newer than the universal and lowered, or not, before they
/// meet it. An App's parts are compared from the last to the first.
fn lowered() -> Titled {
    let (older, fixed) = (|| bound(10), || bound(11));
    let (newer, other) = (|| bound(12), || bound(13));
    let large = || in_n32(fixed(), older());
    let by = |ty| leaving(in_n32(newer(), ty), large());
    let inner = in_n32(in_n31(other()), in_n31(newer()));
    vec![
        ("lowered by a part", by(in_n31(newer()))),
        ("by parts of an Arrow", by(arrow(newer(), newer()))),
        ("in a Product", by(product([INT, newer()]))),
        ("another one is lowered", by(in_n31(other()))),
        (
            "by way of another one",
            leaving(app(in_n32(Ty::Con(33), other()), inner), {
                let twice = in_n32(older(), older());
                app(in_n32(Ty::Con(33), fixed()), twice)
            }),
        ),
        (
            "too late: a part of the older one meets it",
            leaving(in_n32(in_n31(newer()), newer()), in_n32(older(), fixed())),
        ),
        (
            "another one beside it in what is refused",
            leaving(
                in_n32(product([newer(), other()]), newer()),
                in_n32(older(), fixed()),
            ),
        ),
    ]
}

/// What is refused before scope is looked at.
fn first_refused() -> Titled {
    let small = || in_n32(bound(12), bound(12));
    let large = |part| in_n32(product([part, bound(11)]), bound(10));
    vec![
        ("the unknown occurs", leaving(small(), large(bound(10)))),
        ("it does not", leaving(small(), large(INT))),
    ]
}

/// Plans that a seed gives.
pub fn random(seed: u64, count: usize) -> impl Iterator<Item = Made> {
    let mut random = Random::new(seed);
    (0..count).map(move |_| Made {
        lines: plan(&mut random),
        ceiling: super::ceiling(&mut random),
    })
}

fn plan(random: &mut Random) -> Lines {
    match random.below(100) {
        0..=44 => open::plan(random),
        45..=79 => compared(related::pair(random)),
        _ => compared(related::spines(random)),
    }
}
