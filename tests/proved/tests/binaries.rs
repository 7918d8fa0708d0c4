//! The proved joining and comparing of binaries against lists of bits.

use compare::random::Rng;
use proved::{compare_binaries, join, Binary};
use reference::AnswerRow;

const PAIRS: u64 = 200_000;
const MOST: usize = 63;
const BINARY: u8 = 3;
const OUTSIDE: u8 = 16;

/// The leftmost first; bits that a number of 64 has not are 0.
fn bits(a: Binary) -> Vec<bool> {
    (0..u32::from(a.length)).rev().map(|i| a.number.checked_shr(i).is_some_and(|rest| rest & 1 == 1)).collect()
}

fn joined(a: Binary, b: Binary) -> AnswerRow {
    let both = [bits(a), bits(b)].concat();
    if both.len() > MOST {
        return AnswerRow { kind: OUTSIDE, number: 0, length: 0 };
    }
    let number = both.iter().fold(0, |n, &bit| 2 * n + i64::from(bit));
    AnswerRow { kind: BINARY, number, length: both.len() as u32 }
}

fn hold(a: Binary, b: Binary) {
    for (a, b) in [(a, b), (b, a)] {
        assert_eq!(compare_binaries(a, b), bits(a).cmp(&bits(b)), "{a:?} and {b:?}");
        assert_eq!(join(a, b), joined(a, b), "{a:?} + {b:?}");
    }
}

/// Bits that no list has stand left of the others. One pair in four is a binary and one that it begins with.
#[test]
fn pairs_of_every_length() {
    let mut rng = Rng::new(0);
    let (mut prefixes, mut too_long) = (0, 0);
    for _ in 0..PAIRS {
        let mut binary = || Binary { number: rng.draw(), length: rng.below(66) as u8 };
        let (a, other) = (binary(), binary());
        let cut = other.length % 64;
        let prefix = other.number % 4 == 0 && cut < a.length;
        let b = if prefix { Binary { number: a.number >> cut, length: a.length - cut } } else { other };
        hold(a, b);
        prefixes += u64::from(prefix);
        too_long += u64::from(a.length + b.length > MOST as u8);
    }
    assert!(prefixes > PAIRS / 20 && too_long > PAIRS / 20 && too_long < PAIRS / 20 * 19, "{prefixes}, {too_long}");
}

#[test]
fn all_short_pairs() {
    let binaries = || (0..7u8).flat_map(|length| (0..1 << length).map(move |number| Binary { number, length }));
    binaries().for_each(|a| binaries().for_each(|b| hold(a, b)));
}

/// Every sum of lengths around the most, and lengths that no number has bits for.
#[test]
fn lengths_at_the_end() {
    for length in 0..=255 {
        for other in [0, 1, 2, 31, 32, 61, 62, 63, 64, 65, 128, 254, 255] {
            for number in [0, 1, u64::MAX, 1 << 62, 1 << 63, u64::MAX / 3] {
                hold(Binary { number, length }, Binary { number: !number, length: other });
                hold(Binary { number, length }, Binary { number, length: other });
            }
        }
    }
}

/// The order that the scope names, and a joined binary of its listing.
#[test]
fn worked_cases() {
    let [a, b, c, d] = [(0b01, 2), (0b010, 3), (0b10, 2), (0b011, 3)].map(|(number, length)| Binary { number, length });
    assert!(compare_binaries(a, b).is_lt());
    assert!(compare_binaries(c, d).is_gt());
    assert_eq!(join(c, d), AnswerRow { kind: BINARY, number: 0b10011, length: 5 });
    assert_eq!(join(Binary { number: 1, length: 63 }, Binary { number: 0, length: 1 }).kind, OUTSIDE);
}
