//! The plans on the wall of document 01, with the numbers that it states.

mod common;

use common::{nested, sheet, SEVEN_AS_INT};
use kirvoghus::{
    check, read_sheet, term, Buffers, Name, Outcome, Type, Verdict, MOST_STEPS, SHEET_BYTES,
};

fn checked(numbers: &[i64], ceiling: u32) -> (Outcome, Buffers) {
    let mut buffers = Buffers::new();
    let outcome = check(&sheet(numbers), ceiling, &mut buffers);
    (outcome, buffers)
}

/// Checks under the highest ceiling: number, taken and fresh numbers are these.
fn wall(numbers: &[i64], [number, taken, fresh]: [u32; 3]) -> Verdict {
    let (outcome, _) = checked(numbers, MOST_STEPS);
    assert_eq!(outcome.numbers()[0], number);
    assert_eq!((outcome.taken, outcome.fresh), (taken, fresh));
    assert_eq!(outcome.is_accepted(), number == 0);
    let quantified = numbers.chunks(3).any(|n| n[0] == 14 || n[0] == 25);
    assert_eq!(outcome.plain, !quantified);
    outcome.verdict
}

fn con(name: u32) -> Type {
    Type::Con(Name(name))
}

#[test]
fn seven_as_int() {
    let (outcome, buffers) = checked(&SEVEN_AS_INT, MOST_STEPS);
    assert_eq!(outcome.numbers(), [0, 0, 5, 1, 0, 0, 1]);
    assert_eq!(outcome.verdict, Verdict::Accepted);
    assert_eq!(
        outcome.to_string(),
        "     0     0     5     1     0     0     1"
    );
    assert_eq!(buffers.solution(0), Some(con(1)));
    assert_eq!(buffers.solution(1), None);
    assert_eq!(buffers.solutions().collect::<Vec<_>>(), [(0, con(1))]);
}

/// Plain looks at those entries alone that the term names.
#[test]
fn seven_as_int_beside_a_catalogue() {
    let quantified = [1, 20, 0, 14, 11, 0, 11, 11, 0];
    let (outcome, _) = checked(&[&quantified[..], &SEVEN_AS_INT].concat(), MOST_STEPS);
    assert_eq!(outcome.numbers(), [0, 0, 5, 1, 0, 0, 1]);
    assert!(outcome.plain);
    let named = [3, 0, 0, 12, 1, 0, 4, 0, 0, 26, 20, 0];
    let (outcome, _) = checked(&[&quantified[..], &named].concat(), MOST_STEPS);
    assert!(outcome.is_accepted() && !outcome.plain);
}

#[test]
fn ceilings() {
    let (_, whole) = checked(&SEVEN_AS_INT, MOST_STEPS);
    let (outcome, buffers) = checked(&SEVEN_AS_INT, 4);
    assert_eq!(outcome.verdict, Verdict::CeilingReached);
    assert_eq!(outcome.numbers(), [21, 0, 4, 1, 0, 0, 1]);
    assert_eq!(buffers.book(), whole.book());
    let (outcome, _) = checked(&SEVEN_AS_INT, 5);
    assert_eq!(outcome.verdict, Verdict::Accepted);
    let (outcome, buffers) = checked(&SEVEN_AS_INT, 0);
    assert_eq!(outcome.numbers(), [21, 0, 0, 0, 0, 0, 1]);
    assert_eq!(buffers.solutions().count(), 0);
    let (outcome, _) = checked(&SEVEN_AS_INT, MOST_STEPS + 1);
    assert_eq!(outcome.verdict, Verdict::CeilingTooHigh);
    assert_eq!(outcome.numbers(), [1, 0, 0, 0, 0, 0, 0]);
}

#[test]
fn seven_as_bool() {
    let plan = [3, 0, 0, 12, 2, 0, 4, 0, 0, 22, 7, 0];
    let (left, right) = (con(1), con(2));
    assert_eq!(
        wall(&plan, [15, 4, 1]),
        Verdict::SubtypingError { left, right }
    );
}

#[test]
fn unbound_variable() {
    let plan = [3, 0, 0, 12, 1, 0, 4, 0, 0, 21, 10, 0];
    let name = Name(10);
    assert_eq!(wall(&plan, [11, 2, 1]), Verdict::UnboundVariable { name });
}

#[test]
fn lambda_as_arrow() {
    let plan = [
        3, 0, 0, 13, 0, 0, 12, 1, 0, 12, 1, 0, 4, 0, 0, 23, 10, 0, 12, 1, 0, 21, 10, 0,
    ];
    assert_eq!(wall(&plan, [0, 8, 1]), Verdict::Accepted);
}

#[test]
fn print_int_with_no_argument() {
    let plan = [3, 0, 0, 12, 3, 0, 4, 0, 0, 30, 4, 0];
    let (expected, actual) = (1, 0);
    assert_eq!(
        wall(&plan, [18, 2, 1]),
        Verdict::IntrinsicArityMismatch { expected, actual }
    );
}

#[test]
fn seven_as_forall() {
    let plan = [3, 0, 0, 14, 10, 0, 11, 10, 0, 4, 0, 0, 22, 7, 0];
    let (left, right) = (con(1), Type::Universal(0));
    assert_eq!(
        wall(&plan, [15, 5, 2]),
        Verdict::SubtypingError { left, right }
    );
}

#[test]
fn seven_applied_to_seven() {
    let plan = [3, 0, 0, 12, 1, 0, 4, 0, 0, 24, 0, 0, 22, 7, 0, 22, 7, 0];
    let ty = con(1);
    assert_eq!(wall(&plan, [13, 5, 2]), Verdict::NotAFunction { ty });
}

#[test]
fn constructor_with_an_unbound_argument() {
    let plan = [
        1, 20, 0, 12, 30, 0, 3, 0, 0, 12, 30, 0, 4, 0, 0, 26, 20, 1, 21, 99, 0,
    ];
    assert_eq!(wall(&plan, [0, 5, 1]), Verdict::Accepted);
}

#[test]
fn product_of_a_quantified_part() {
    let plan = [
        2, 10, 0, 16, 0, 1, 14, 11, 0, 11, 11, 0, 3, 0, 0, 12, 1, 0, 4, 0, 0, 21, 10, 0,
    ];
    let Verdict::InstantiationError { unknown, ty } = wall(&plan, [17, 3, 1]) else {
        panic!("another verdict");
    };
    assert_eq!(unknown, 0);
    assert_eq!(ty.to_string(), "(∀n11. n11)");
}

#[test]
fn case_whose_last_arm_sees_the_first_ones_variable() {
    let plan = [
        3, 0, 0, 12, 1, 0, 4, 0, 0, 27, 0, 2, 22, 7, 0, 42, 10, 0, 22, 1, 0, 41, 0, 0, 21, 10, 0,
    ];
    assert_eq!(wall(&plan, [0, 21, 5]), Verdict::Accepted);
    let (_, buffers) = checked(&plan, MOST_STEPS);
    // The Rust's order of solving.
    let solved = [(2, "^1"), (1, "^0"), (3, "Int"), (0, "Int"), (4, "Int")];
    let found: Vec<_> = buffers.solutions().collect();
    assert_eq!(found.len(), solved.len());
    for ((unknown, ty), (number, text)) in found.iter().zip(solved) {
        assert_eq!((*unknown, ty.to_string().as_str()), (number, text));
        assert_eq!(buffers.solution(*unknown).as_ref(), Some(ty));
    }
}

#[test]
fn names_out_of_range() {
    let zero = [3, 0, 0, 11, 0, 0, 4, 0, 0, 22, 7, 0];
    assert_eq!(wall_refused(&zero), Verdict::Unfit { line: 2 });
    let negative = [3, 0, 0, 11, -1, 0, 4, 0, 0, 22, 7, 0];
    assert_eq!(wall_refused(&negative), Verdict::Misspelt { line: 2 });
}

/// The verdict on a sheet that holds no plan, checked and read only.
fn wall_refused(numbers: &[i64]) -> Verdict {
    let (outcome, _) = checked(numbers, MOST_STEPS);
    let [_, _, rest @ ..] = outcome.numbers();
    assert_eq!(rest, [0; 5]);
    assert!(!outcome.plain);
    assert_eq!(read_sheet(&sheet(numbers)), outcome.verdict);
    outcome.verdict
}

/// 7 as products of products, on a sheet of so many lines.
fn long(lines: usize) -> Vec<i64> {
    [vec![3, 0, 0], nested(lines - 4), vec![4, 0, 0, 22, 7, 0]].concat()
}

#[test]
fn two_thousand_lines() {
    assert_eq!(sheet(&long(2000)).len(), SHEET_BYTES);
    assert_eq!(read_sheet(&sheet(&long(2000))), Verdict::Accepted);
    let (outcome, _) = checked(&long(2000), MOST_STEPS);
    assert!(outcome.numbers()[0] > 5);
    assert_eq!(wall_refused(&long(2001)), Verdict::BadLength);
    assert_eq!(wall_refused(&[]), Verdict::BadLength);
}

/// A Case with two arms: its own lines, its parts' lines, and none where no term starts.
#[test]
fn terms_of_a_sheet() {
    let plan = sheet(&[
        3, 0, 0, 12, 1, 0, 4, 0, 0, // expected
        27, 0, 2, 22, 7, 0, // 4, 5
        42, 10, 0, 28, 1, 0, 22, 1, 0, 21, 10, 0, // 6, 7 to 9
        41, 0, 0, 21, 10, 0, // 10, 11
    ]);
    let lines = |first: usize, last: usize| &plan[29 * (first - 1)..29 * last];
    assert_eq!(term(&plan, 4), lines(4, 11));
    assert_eq!(term(&plan, 5), lines(5, 5));
    assert_eq!(term(&plan, 7), lines(7, 9));
    assert_eq!(term(&plan, 11), lines(11, 11));
    for line in [0, 1, 2, 3, 6, 10, 12, 13, u32::MAX] {
        assert_eq!(term(&plan, line), &[0u8; 0], "line {line}");
    }
    // A term whose last line is lacking is none.
    assert_eq!(term(&plan[..29 * 8], 7), &[0u8; 0]);
}

/// So many lines that are one term: TypeLambdas over a literal.
fn type_lambdas(lines: usize) -> Vec<u8> {
    let mut numbers = [25, 10, 0].repeat(lines - 1);
    numbers.extend([22, 7, 0]);
    sheet(&numbers)
}

/// As many bytes as a sheet has, and more: no sub-term is looked for in these, so
/// that a thread's stack is enough, however deep they nest.
#[test]
fn terms_of_more_bytes_than_a_sheet_has() {
    let look = || {
        let longest = type_lambdas(2000);
        assert_eq!(longest.len(), SHEET_BYTES);
        assert_eq!(term(&longest, 1), longest);
        assert_eq!(term(&longest, 2000), &longest[29 * 1999..]);
        let one_byte_more = [&longest[..], b" "].concat();
        for more in [one_byte_more, type_lambdas(2001), type_lambdas(32_800)] {
            for line in [0, 1, 2, 2000, 2001, u32::MAX] {
                assert_eq!(term(&more, line), &[0u8; 0], "{} bytes", more.len());
            }
        }
    };
    let thread = std::thread::Builder::new().stack_size(1 << 20);
    thread.spawn(look).unwrap().join().unwrap();
}

#[test]
fn deep_types() {
    let depth = 990;
    let ty = nested(depth);
    let plan = [
        vec![2, 10, 0],
        ty.clone(),
        vec![3, 0, 0],
        ty,
        vec![4, 0, 0, 21, 10, 0],
    ];
    let (outcome, buffers) = checked(&plan.concat(), MOST_STEPS);
    assert_eq!(outcome.verdict, Verdict::Accepted);
    let solution = buffers.solution(0).expect("solved");
    let text = "(".repeat(depth) + "Int" + &")".repeat(depth);
    assert_eq!(solution.to_string(), text);
}
