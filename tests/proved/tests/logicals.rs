//! The proved operations on logicals and their relations, by tables written by hand.

use proved::{and, not, or, relate, xor};

/// By the numbers of an answer row.
const NAMES: [char; 3] = ['F', 'U', 'T'];

/// A row for each first operand, a letter for each second.
fn table(operation: impl Fn(u8, u8) -> u8) -> [String; 3] {
    [0, 1, 2].map(|a| [0, 1, 2].map(|b| NAMES[usize::from(operation(a, b))]).iter().collect())
}

#[test]
fn connectives() {
    assert_eq!(table(and), ["FFF", "FUU", "FUT"]);
    assert_eq!(table(or), ["FUT", "UUT", "TTT"]);
    assert_eq!(table(xor), ["FUT", "UUU", "TUF"]);
    assert_eq!([0, 1, 2].map(not), [2, 1, 0]);
}

#[test]
fn relations() {
    let tables = [
        ["FTT", "FFT", "FFF"],
        ["FFF", "TFF", "TTF"],
        ["TTT", "FTT", "FFT"],
        ["TFF", "TTF", "TTT"],
        ["FTT", "TFT", "TTF"],
        ["TFF", "FTF", "FFT"],
        ["FTT", "TFT", "TTF"],
        ["TFF", "FTF", "FFT"],
    ];
    for (by, expected) in (0..).zip(tables) {
        assert_eq!(table(|a, b| relate(a, by, b)), expected, "relation {by}");
    }
}

/// A number past the last is the last.
#[test]
fn other_numbers() {
    for n in 3..=255 {
        for b in 0..3 {
            assert_eq!([and(n, b), or(b, n), xor(n, b)], [and(2, b), or(b, 2), xor(2, b)], "{n} and {b}");
            assert_eq!(relate(n, n.max(7), b), relate(2, 7, b), "{n} and {b}");
        }
    }
}
