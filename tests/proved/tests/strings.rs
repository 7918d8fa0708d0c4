//! The proved order of strings is that of Rust's slices.

use compare::random::Rng;
use proved::compare_strings;

const PAIRS: usize = 200_000;
/// Longer than any string of the language.
const MOST: usize = 300;

fn hold(a: &[u8], b: &[u8]) {
    for (a, b) in [(a, b), (b, a)] {
        assert_eq!(compare_strings(a, b), a.cmp(b), "{} and {}", a.escape_ascii(), b.escape_ascii());
    }
}

fn bytes(rng: &mut Rng, most: usize) -> Vec<u8> {
    (0..rng.below(most + 1)).map(|_| rng.draw() as u8).collect()
}

/// Most pairs begin alike; in more than one of three one string is the other's beginning, or both are equal.
#[test]
fn pairs_with_common_beginnings() {
    let mut rng = Rng::new(0);
    let (mut prefixes, mut equal) = (0, 0);
    for _ in 0..PAIRS {
        let common = bytes(&mut rng, MOST - 10);
        let rests = match rng.below(6) {
            0 => [Vec::new(), Vec::new()],
            1 => [Vec::new(), bytes(&mut rng, 10)],
            _ => [bytes(&mut rng, 10), bytes(&mut rng, 10)],
        };
        let [a, b] = rests.map(|rest| [&common[..], &rest].concat());
        hold(&a, &b);
        equal += usize::from(a == b);
        prefixes += usize::from(a != b && (a.starts_with(&b) || b.starts_with(&a)));
    }
    assert!(equal > PAIRS / 10 && prefixes > PAIRS / 10 && equal + prefixes < PAIRS / 2, "{equal}, {prefixes}");
}

/// All strings of up to so many bytes of an alphabet.
fn all_strings(alphabet: &[u8], most: usize) -> Vec<Vec<u8>> {
    let mut strings = vec![Vec::new()];
    let mut last = 0;
    for _ in 0..most {
        let longer: Vec<Vec<u8>> =
            strings[last..].iter().flat_map(|s| alphabet.iter().map(move |&byte| [&s[..], &[byte]].concat())).collect();
        last = strings.len();
        strings.extend(longer);
    }
    strings
}

/// Strings of up to eight bytes of two, of up to four of four, and of one byte.
#[test]
fn all_short_pairs() {
    let every: Vec<u8> = (0..=255).collect();
    for (alphabet, most, count) in [(&[b'A', b'a'][..], 8, 511), (&[0, 1, 0x7f, 0x80], 4, 341), (&every, 1, 257)] {
        let strings = all_strings(alphabet, most);
        assert_eq!(strings.len(), count);
        strings.iter().for_each(|a| strings.iter().for_each(|b| hold(a, b)));
    }
}

/// A proper prefix is less, and so is what has the lesser byte at the first place where two differ, a byte being a number from 0 to 255.
#[test]
fn worked_cases() {
    for (less, more) in [("", "\0"), ("ab", "ab\0"), ("ab", "abc"), ("abz", "ac"), ("B", "a"), ("9", "A"), ("~", "é")]
    {
        assert!(compare_strings(less.as_bytes(), more.as_bytes()).is_lt(), "{less:?} and {more:?}");
        assert!(compare_strings(more.as_bytes(), less.as_bytes()).is_gt(), "{more:?} and {less:?}");
        assert!(compare_strings(less.as_bytes(), less.as_bytes()).is_eq(), "{less:?}");
    }
}
