//! The writing call on known lists, and wrong writers, each of which the
//! comparison has to tell.

use super::{lines, FIRST};
use crate::proved::{Proved, Write};
use crate::sheet::{read, Refusal, LINE, LIT_INT, MOST_LINES};
use crate::wall::long_sheet;
use crate::with_stack;
use crate::writes::{compare_random, compare_recorded, needed, words_of, write_call, TRIPLE};

const SEVEN_AS_INT: [i64; 12] = [3, 0, 0, 12, 1, 0, 4, 0, 0, 22, 7, 0];

/// The numbers, which are 0 from the third on, and the output, whose bytes were dots.
fn called(words: &[i64], out_len: usize) -> ((u32, u32), Vec<u8>) {
    let mut out = vec![b'.'; out_len];
    let [number, line, rest @ ..] = write_call(words, &mut out);
    assert_eq!(rest, [0; 5]);
    ((number, line), out)
}

/// What a refused list gets, under any length of the output, which is kept.
fn refused(words: &[i64]) -> (u32, u32) {
    let told = called(words, 0).0;
    for out_len in [1, needed(words), needed(words) + 7] {
        assert_eq!(called(words, out_len), (told, vec![b'.'; out_len]));
    }
    told
}

/// 7 as Int with a triple changed.
fn with_triple(at: usize, triple: [i64; TRIPLE]) -> Vec<i64> {
    let mut words = SEVEN_AS_INT.to_vec();
    words[TRIPLE * at..TRIPLE * (at + 1)].copy_from_slice(&triple);
    words
}

#[test]
fn the_first_plan_is_written() {
    let bytes = FIRST.as_bytes();
    assert_eq!(called(&SEVEN_AS_INT, bytes.len()), ((0, 0), bytes.to_vec()));
    for tail in [".", "......."] {
        let out = [bytes, tail.as_bytes()].concat();
        assert_eq!(called(&SEVEN_AS_INT, out.len()), ((0, 0), out));
    }
    for out_len in [0, 1, LINE, bytes.len() - 1] {
        let kept = vec![b'.'; out_len];
        assert_eq!(called(&SEVEN_AS_INT, out_len), ((31, 0), kept));
    }
}

#[test]
fn lengths_are_refused_first() {
    assert_eq!(refused(&[]), (3, 0));
    for words in [1, 2, 11, 13] {
        let longer = [&SEVEN_AS_INT[..], &[0]].concat();
        assert_eq!(refused(&longer[..words]), (3, 0));
    }
    let longer = |triples| words_of(long_sheet(triples));
    assert_eq!(refused(&longer(MOST_LINES + 1)), (3, 0));
    assert_eq!(refused(&[longer(MOST_LINES), vec![0]].concat()), (3, 0));
    // No plan either, by its first triple.
    assert_eq!(refused(&[0; TRIPLE * (MOST_LINES + 1)]), (3, 0));
    assert_eq!(refused(&[0; TRIPLE * MOST_LINES]), (5, 1));
}

#[test]
fn two_thousand_triples_are_written() {
    let (told, sheet) = with_stack(|| called(&words_of(long_sheet(MOST_LINES)), LINE * MOST_LINES));
    assert_eq!(told, (0, 0));
    assert!(with_stack(move || read(&sheet).is_ok()));
}

#[test]
fn bad_triples_are_told_by_their_place() {
    for (at, triple) in [
        (3, [21, -10, 0]),
        (1, [12, -1, 0]),
        (1, [12, i64::MIN, 0]),
        (0, [3, -1, 0]),
        (3, [1000, 7, 0]),
        (3, [1022, 7, 0]),
        (3, [-22, 7, 0]),
        (3, [22 + (1 << 32), 7, 0]),
        (3, [i64::MAX, 7, 0]),
        (3, [22, 7, -1]),
        (3, [22, 7, 1]),
        (3, [22, 7, 100_000]),
        (3, [22, 7, i64::MIN]),
        (1, [16, 0, 99_999]),
        (1, [16, 0, 100]),
        (0, [999, 0, 0]),
        (0, [0, 0, 0]),
        (1, [12, 10_000, 0]),
        (2, [22, 7, 0]),
    ] {
        let words = with_triple(at, triple);
        assert_eq!(refused(&words), (5, at as u32 + 1), "{triple:?}");
    }
}

#[test]
fn the_first_bad_triple_is_told() {
    let words = [with_triple(1, [17, 1, 0]), vec![21, -10, 0]].concat();
    assert_eq!(refused(&words), (5, 2));
    let words = [with_triple(1, [12, -1, 0]), vec![17, 1, 0]].concat();
    assert_eq!(refused(&words), (5, 2));
    // A misspelt line after the plan, where a reader of bytes would say 4.
    for triple in [[22, 7, 0], [21, -10, 0], [1000, 0, 0]] {
        assert_eq!(refused(&[&SEVEN_AS_INT[..], &triple].concat()), (5, 5));
    }
}

#[test]
fn a_lacking_triple_is_one_more() {
    for triples in 1..4 {
        let words = &SEVEN_AS_INT[..TRIPLE * triples];
        assert_eq!(refused(words), (5, triples as u32 + 1));
    }
    assert_eq!(refused(&with_triple(3, [28, 1, 0])), (5, 5));
}

#[test]
fn literals_of_64_bits_are_written() {
    for (value, field) in [
        (i64::MIN, "-9223372036854775808"),
        (i64::MAX, " 9223372036854775807"),
        (-10, "                 -10"),
        (0, "                   0"),
    ] {
        let (told, out) = called(&with_triple(3, [LIT_INT, value, 0]), FIRST.len());
        let line = format!(" 22{field}    0\n");
        assert_eq!(told, (0, 0));
        assert_eq!(
            out,
            [&FIRST.as_bytes()[..3 * LINE], line.as_bytes()].concat()
        );
    }
}

/// A library with this writer and with the reader of `sheet`.
fn with_writer(write: Write) -> Proved {
    Proved {
        check: |_, _, _, _, _| unreachable!("nothing is checked"),
        read: |sheet| {
            let refusal = read(sheet).err();
            refusal.unwrap_or(Refusal { number: 0, line: 0 })
        },
        write,
    }
}

fn right(words: &[i64], out: &mut [u8]) -> (u32, [u32; 7]) {
    let seven = write_call(words, out);
    (seven[0], seven)
}

/// The right one on other words.
fn on(out: &mut [u8], words: impl Iterator<Item = i64>) -> (u32, [u32; 7]) {
    right(&words.collect::<Vec<_>>(), out)
}

fn by_triples(words: &[i64]) -> impl Iterator<Item = [i64; TRIPLE]> + '_ {
    words
        .chunks(TRIPLE)
        .map(|triple| std::array::from_fn(|at| triple.get(at).copied().unwrap_or(0)))
}

/// The right one, and then the seven numbers otherwise.
fn told(words: &[i64], out: &mut [u8], wrong: fn(usize, &mut [u32; 7])) -> (u32, [u32; 7]) {
    let (number, mut seven) = right(words, out);
    wrong(words.len() / TRIPLE, &mut seven);
    (number, seven)
}

const WRONG: [(&str, Write); 15] = [
    ("sign untested", |words, out| {
        let unsigned = |triple: [i64; TRIPLE]| match triple {
            [LIT_INT, ..] => triple,
            [kind, value, count] => [kind, value.wrapping_abs(), count],
        };
        match words.len() % TRIPLE {
            0 => on(out, by_triples(words).flat_map(unsigned)),
            _ => right(words, out),
        }
    }),
    ("32 bits of a kind", |words, out| {
        let narrow = |[kind, value, count]: [i64; TRIPLE]| [kind as u32 as i64, value, count];
        match words.len() % TRIPLE {
            0 => on(out, by_triples(words).flat_map(narrow)),
            _ => right(words, out),
        }
    }),
    ("a triple made whole", |words, out| {
        on(out, by_triples(words).flatten())
    }),
    ("words left over", |words, out| {
        right(&words[..words.len() / TRIPLE * TRIPLE], out)
    }),
    ("2,001 triples", |words, out| match words.len() / TRIPLE {
        triples if triples == MOST_LINES + 1 => (0, [0; 7]),
        _ => right(words, out),
    }),
    ("1,999 triples at most", |words, out| {
        match words.len() / TRIPLE {
            MOST_LINES => (3, [3, 0, 0, 0, 0, 0, 0]),
            _ => right(words, out),
        }
    }),
    ("tail cleared", |words, out| {
        let told = right(words, out);
        if told.0 == 0 {
            out[needed(words)..].fill(b' ');
        }
        told
    }),
    ("31 before 5", |words, out| match right(words, out) {
        (5, _) if out.len() < needed(words) => (31, [31, 0, 0, 0, 0, 0, 0]),
        told => told,
    }),
    ("a byte too few is enough", |words, out| {
        match right(words, out) {
            (31, _) if out.len() + 1 == needed(words) => (0, [0; 7]),
            told => told,
        }
    }),
    ("just enough is too few", |words, out| {
        match out.len() == needed(words) {
            true if right(words, &mut out.to_vec()).0 == 0 => (31, [31, 0, 0, 0, 0, 0, 0]),
            _ => right(words, out),
        }
    }),
    ("written before it is refused", |words, out| {
        let told = right(words, out);
        if told.0 == 5 && !out.is_empty() {
            out[0] = b' ';
        }
        told
    }),
    ("places from 0", |words, out| {
        told(words, out, |_, seven| seven[1] = seven[1].saturating_sub(1))
    }),
    ("the last one told where one is lacking", |words, out| {
        told(words, out, |triples, seven| {
            seven[1] = seven[1].min(triples as u32)
        })
    }),
    ("a plain mark", |words, out| {
        told(words, out, |_, seven| seven[6] = 1)
    }),
    ("another number returned", |words, out| {
        match right(words, out) {
            (31, seven) => (0, seven),
            told => told,
        }
    }),
];

const SEED: u64 = 11;
const LISTS: usize = 1500;

#[test]
fn wrong_writers_are_told() {
    with_stack(|| {
        assert!(compare_random(&with_writer(right), SEED, LISTS));
        for (title, wrong) in WRONG {
            assert!(!compare_random(&with_writer(wrong), SEED, LISTS), "{title}");
        }
    });
}

/// A call of either sort, plain and raw, and what is no record.
#[test]
fn recorded_plans_are_compared() {
    let good = "# Plans\n1 5 4 3 0 0 12 1 0 4 0 0 22 7 0 0 0 5 1 0 0 1 0 1 0 1 12 1 0\n\
        4 10000 1024 12288 11192 4096 4 3 0 0 12 1 0 4 0 0 22 7 0 116 0 0 0 5 1 0 0 1 0 1 0 1 12 1 0\n";
    let refused = "2 10000 1 3 0 0 5 2 0 0 0 0 0 0 0\n";
    let same = |writer, list: &str| compare_recorded(&with_writer(writer), list);
    assert!(same(right, good) && same(right, &format!("{good}{refused}")));
    for none in ["", "# Plans\n", refused] {
        assert!(!same(right, none), "{none}");
    }
    for malformed in ["1 5 4 3 0 0\n", "5 1 0\n", "1 5 -1\n", "x\n", "\n"] {
        assert!(!same(right, &format!("{good}{malformed}")), "{malformed}");
    }
    let spaced: Write = |words, out| {
        let told = right(words, out);
        out[1] = b'0';
        told
    };
    assert!(!same(spaced, good));
    let cleared = WRONG.iter().find(|(title, _)| *title == "tail cleared");
    assert!(!same(cleared.expect("a wrong writer").1, good));
}

#[test]
fn words_are_those_of_the_lines() {
    assert_eq!(words_of(lines(&SEVEN_AS_INT)), SEVEN_AS_INT);
}
