//! Lists of triples, as words, that are mostly no plan any more, and outputs of
//! many lengths.

use super::{words_of, TRIPLE};
use crate::random::Random;
use crate::sheet::{KINDS, LINE, LIT_INT, MOST_LINES};
use crate::wall::long_sheet;

type Damage = fn(&mut Random, &mut Vec<i64>);

const DAMAGES: [(&str, Damage); 23] = [
    ("value negated", |random, words| {
        let at = some_triple(random, words);
        words[at + 1] = words[at + 1].wrapping_neg();
    }),
    ("word negated", |random, words| {
        change(random, words, |_, old| old.wrapping_neg())
    }),
    ("any word", |random, words| {
        change(random, words, |random, _| any(random))
    }),
    ("signed 64 bits", |random, words| {
        change(random, words, |random, _| *random.pick(&EDGES))
    }),
    ("a high bit", |random, words| {
        change(random, words, |random, old| {
            old ^ (1 << random.pick(&[8, 16, 31, 32, 33, 48, 62, 63]))
        })
    }),
    ("literal", literal),
    ("kind", |random, words| {
        let kind = match random.below(4) {
            0 => *random.pick(&[999, 1000, 1001, -1]),
            _ => random.below(51) as i64,
        };
        set(random, words, 0, kind);
    }),
    ("name", |random, words| {
        let name = *random.pick(&[-1, 0, 1, 6, 7, 9_998, 9_999, 10_000, 65_537]);
        set(random, words, 1, name);
    }),
    ("count", |random, words| {
        let count = *random.pick(&[-1, 0, 1, 98, 99, 100, 9_999, 10_000, 99_999, 100_000]);
        set(random, words, 2, count);
    }),
    ("triple dropped", |random, words| {
        let at = some_triple(random, words);
        words.drain(at..at + TRIPLE);
    }),
    ("triple doubled", |random, words| {
        let at = some_triple(random, words);
        words.extend_from_within(at..at + TRIPLE);
        words[at..].rotate_right(TRIPLE);
    }),
    ("triples swapped", |random, words| {
        let (one, other) = (some_triple(random, words), some_triple(random, words));
        (0..TRIPLE).for_each(|word| words.swap(one + word, other + word));
    }),
    ("triple inserted", insert),
    ("one after the plan", |random, words| {
        let at = some_triple(random, words);
        words.extend_from_within(at..at + TRIPLE);
    }),
    ("cut at a word", |random, words| {
        let len = random.below(words.len());
        words.truncate(len);
    }),
    ("cut at a triple", |random, words| {
        let len = some_triple(random, words);
        words.truncate(len);
    }),
    ("a word more", |random, words| {
        let word = any(random);
        words.extend([word, word].iter().take(1 + random.below(2)));
    }),
    ("no word", |_, words| words.clear()),
    ("1,999 triples", |random, words| {
        long(random, words, MOST_LINES - 1)
    }),
    ("2,000 triples", |random, words| {
        long(random, words, MOST_LINES)
    }),
    ("2,001 triples", |random, words| {
        long(random, words, MOST_LINES + 1)
    }),
    ("2,000 triples and words", |random, words| {
        long(random, words, MOST_LINES);
        words.extend([0, 0].iter().take(1 + random.below(2)));
    }),
    ("two", two),
];

const EDGES: [i64; 14] = [
    i64::MIN,
    i64::MIN + 1,
    i64::MAX,
    i64::MAX - 1,
    -1_000_000_000_000_000_000,
    -999_999_999_999_999_999,
    1_000_000_000_000_000_000,
    -(1 << 32),
    1 << 32,
    (1 << 32) + 1,
    -10,
    -1,
    0,
    1,
];

/// Damages the words, and says how.
pub fn damage(random: &mut Random, words: &mut Vec<i64>) -> &'static str {
    let (title, damage) = *random.pick(&DAMAGES);
    damage(random, words);
    title
}

/// The first word of a triple.
fn some_triple(random: &mut Random, words: &[i64]) -> usize {
    TRIPLE * random.below(words.len() / TRIPLE)
}

fn change(random: &mut Random, words: &mut [i64], new: fn(&mut Random, i64) -> i64) {
    let at = random.below(words.len());
    words[at] = new(random, words[at]);
}

fn set(random: &mut Random, words: &mut [i64], field: usize, word: i64) {
    let at = some_triple(random, words) + field;
    words[at] = word;
}

/// Of any count of bits, so that small ones come too.
fn any(random: &mut Random) -> i64 {
    let bits = random.below(64);
    random.below(usize::MAX) as i64 >> bits
}

/// The value of a literal, where there is one: any number is taken there.
fn literal(random: &mut Random, words: &mut Vec<i64>) {
    let starts = (0..words.len()).step_by(TRIPLE);
    let literals: Vec<usize> = starts.filter(|at| words[*at] == LIT_INT).collect();
    let at = match literals.is_empty() {
        true => some_triple(random, words),
        false => *random.pick(&literals),
    };
    words[at + 1] = match random.chance(50) {
        true => *random.pick(&EDGES),
        false => any(random),
    };
}

/// Any triple that can stand somewhere, and some that can't.
fn insert(random: &mut Random, words: &mut Vec<i64>) {
    let triple = [
        *random.pick(&KINDS),
        *random.pick(&[0, 0, 1, 4, 6, 7, 10, 20, 9999, -7]),
        *random.pick(&[0, 0, 0, 1, 2, 99]),
    ];
    let at = TRIPLE * random.below(words.len() / TRIPLE + 1);
    words.splice(at..at, triple);
}

/// A good plan of that length, or one that is shorter by the last triple, which is
/// then doubled.
fn long(random: &mut Random, words: &mut Vec<i64>, triples: usize) {
    let good = random.below(3) > 0;
    *words = words_of(long_sheet(triples - usize::from(!good)));
    if !good {
        words.extend_from_within(words.len() - TRIPLE..);
    }
}

/// Two damages, of which the second may stand before the first.
fn two(random: &mut Random, words: &mut Vec<i64>) {
    for _ in 0..2 {
        // Some leave no whole triple, and one is needed by most.
        if words.len() >= TRIPLE {
            let damages = DAMAGES.len() - 1;
            DAMAGES[random.below(damages)].1(random, words);
        }
    }
}

type Room = fn(&mut Random, usize) -> usize;

const ROOMS: [((&str, Room), usize); 8] = [
    (("just long enough", |_, needed| needed), 6),
    (("a byte more", |_, needed| needed + 1), 3),
    (
        ("longer", |random, needed| needed + 1 + random.below(300)),
        4,
    ),
    (("as the longest sheet", |_, _| LINE * MOST_LINES), 1),
    (("a byte short", |_, needed| needed.saturating_sub(1)), 3),
    (("a line short", |_, needed| needed.saturating_sub(LINE)), 1),
    (("shorter", |random, needed| random.below(needed + 1)), 1),
    (("empty", |_, _| 0), 1),
];

/// How long the output is, in words and in bytes, where so many are needed.
pub fn room(random: &mut Random, needed: usize) -> (&'static str, usize) {
    let (title, room) = random.weighted(&ROOMS);
    (title, room(random, needed))
}
