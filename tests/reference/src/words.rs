//! Short words as numbers: what the reserved words and the spellings of names are told apart by.

use crate::TokenRow;

/// The longest word that is packed.
const LONGEST: usize = 16;

/// Bit 5 tells no two bytes of words apart but the two cases of a letter.
const FOLD: u128 = 0x2020_2020_2020_2020_2020_2020_2020_2020;

/// A word of at most 16 bytes as one number, letters without case. No two spellings share one, and none has 0.
pub const fn packed(word: &[u8]) -> u128 {
    let mut key = 0;
    let mut i = word.len();
    while i > 0 {
        i -= 1;
        key = key << 8 | (word[i] | 0x20) as u128;
    }
    key
}

/// The packed word of a token, if it is not too long.
pub fn packed_token(bytes: &[u8], token: &TokenRow) -> Option<u128> {
    let length = token.length as usize;
    if !(1..=LONGEST).contains(&length) {
        return None;
    }
    let rest = bytes.get(token.start as usize..)?;
    match rest.first_chunk::<LONGEST>() {
        // One load, and what follows the word taken off.
        Some(chunk) => Some((u128::from_le_bytes(*chunk) | FOLD) & (u128::MAX >> (8 * (LONGEST - length)))),
        None => rest.get(..length).map(packed),
    }
}

/// A hash whose high bits depend on all bits of the key.
pub const fn mixed(key: u128) -> u64 {
    let folded = key as u64 ^ ((key >> 64) as u64).wrapping_mul(0xA24B_AED4_963E_E407);
    let spread = folded.wrapping_mul(0x9E37_79B9_7F4A_7C15);
    (spread ^ spread >> 32).wrapping_mul(0x9E37_79B9_7F4A_7C15)
}
