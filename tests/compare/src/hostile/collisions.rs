//! Names that fall together where the proved interning hashes them (docs/INDEX.md): they change no answer, but take time.

use crate::random::LARGEST;
use std::sync::OnceLock;

const FACTOR: u32 = 2_654_435_761;
/// The bits of four bytes that the hash goes by: those that the two cases of a letter share.
const LOW_BITS: u32 = 0x1f1f_1f1f;
/// A multiple of every number of buckets that a file is given: names that fall together in so many do so in fewer.
const BUCKETS: u64 = 16_384;
/// So many entries fill a chain.
const FULL: usize = 8;
/// So many rounds come behind the first, each with a bucket of its own.
const LATER_ROUNDS: usize = 7;
/// Two blocks of four bytes.
const LENGTH: usize = 8;
type Name = [u8; LENGTH];
/// The short name that others are to hold up.
const SHORT: &[u8] = b"i";

fn hash([a, b, c, d, e, f, g, h]: Name) -> u32 {
    let blocks = [[a, b, c, d], [e, f, g, h]].map(|block| u32::from_le_bytes(block) & LOW_BITS);
    blocks.into_iter().fold(0, |hash: u32, block| hash.wrapping_add(block).wrapping_mul(FACTOR))
}

fn bucket(hash: u32) -> u64 {
    (u64::from(hash) * BUCKETS) >> 32
}

/// The buckets of the short name, round by round.
fn short_buckets() -> Vec<u64> {
    let stir = |h: u64, byte: u8| (h % (1 << 32) + u64::from(byte)) * u64::from(FACTOR) + h / (1 << 32);
    let mut padded = [0; LENGTH];
    padded[..SHORT.len()].copy_from_slice(SHORT);
    let long = SHORT.iter().chain(&[0, 0]).fold(0, |h, &byte| stir(h, byte));
    let later = std::iter::successors(Some(long), |&h| Some(stir(h, 0))).map(|h| h as u32).take(LATER_ROUNDS);
    std::iter::once(hash(padded)).chain(later).map(bucket).collect()
}

/// Names that are all of one hash, for `0` and `p` count alike in it, and that mostly differ in their last bytes alone.
pub fn one_hash(number: usize) -> String {
    let bits = (0..13).rev().map(|bit| if number >> bit & 1 == 0 { '0' } else { 'p' });
    std::iter::once('p').chain(bits).collect()
}

/// As many names as the largest file holds that all fall into the bucket of the short name, each behind a comma.
fn one_bucket() -> &'static str {
    // Each is one of many thousands, so the search is made once.
    static NAMES: OnceLock<String> = OnceLock::new();
    NAMES.get_or_init(|| {
        let wanted = short_buckets()[0];
        let names = (0..).flat_map(spelled).filter(|&name| bucket(hash(name)) == wanted);
        listed(names.take(LARGEST / (1 + LENGTH)))
    })
}

/// The first of these names, as far as they fit into so many bytes.
pub fn one_bucket_within(bytes: usize) -> &'static str {
    let names = one_bucket();
    &names[..bytes.min(names.len()) / (1 + LENGTH) * (1 + LENGTH)]
}

/// Names that fill the chains of all rounds of the short name, each behind a comma.
pub fn full_chains() -> &'static str {
    static NAMES: OnceLock<String> = OnceLock::new();
    NAMES.get_or_init(|| {
        let in_bucket =
            |wanted: u64| (0..).flat_map(spelled).filter(move |&name| bucket(hash(name)) == wanted).take(FULL);
        listed(short_buckets().into_iter().flat_map(in_bucket))
    })
}

fn listed(names: impl Iterator<Item = Name>) -> String {
    names.flat_map(|name| std::iter::once(',').chain(name.map(char::from))).collect()
}

/// The names whose first bytes have a number; a search through millions has no time for more divisions.
fn spelled(mut number: usize) -> impl Iterator<Item = Name> {
    const BYTES: &[u8] = b"abcdefghijklmnopqrstuvwxyz0123456789_";
    let mut digit = |_| {
        let byte = BYTES[number % BYTES.len()];
        number /= BYTES.len();
        byte
    };
    let [b, c, d, e, f] = [(); 5].map(&mut digit);
    BYTES.iter().flat_map(move |&g| BYTES.iter().map(move |&h| [b'z', b, c, d, e, f, g, h]))
}

#[cfg(test)]
mod tests {
    use super::*;
    use std::collections::BTreeSet;

    #[test]
    fn names_are_different() {
        let long: BTreeSet<String> = (0..5_000).map(one_hash).collect();
        let short: BTreeSet<&str> = one_bucket_within(9_005).split(',').skip(1).collect();
        let full: BTreeSet<&str> = full_chains().split(',').skip(1).collect();
        assert_eq!([long.len(), short.len(), full.len()], [5_000, 1_000, FULL * (1 + LATER_ROUNDS)]);
        assert!(short.iter().chain(&full).all(|name| name.len() == LENGTH));
    }
}
