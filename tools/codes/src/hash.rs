//! A perfect hash of the spellings, found by trying.

use crate::{Terminals, FIRST_CODE};

/// A power of two, so that the remainder costs no division.
const SLOT_COUNT: usize = 1024;

pub struct Hash {
    /// Of the first byte, the length, the last byte and the byte before that.
    pub factors: [usize; 4],
    /// By the hash: the code of the spelling that has it, or 0.
    pub slots: Vec<u8>,
}

impl Hash {
    /// The first of a fixed sequence of factors under which no two spellings meet.
    pub fn of(terminals: &Terminals) -> Hash {
        let spellings = terminals.spellings();
        let mut state = 1;
        loop {
            let factors = [0; 4].map(|_| drawn(&mut state));
            if let Some(slots) = slots(&spellings, factors) {
                return Hash { factors, slots };
            }
        }
    }
}

/// The next number of a sequence, below the number of slots.
fn drawn(state: &mut u64) -> usize {
    *state = state.wrapping_mul(6364136223846793005).wrapping_add(1442695040888963407);
    (*state >> 33) as usize % SLOT_COUNT
}

fn slots(spellings: &[&str], factors: [usize; 4]) -> Option<Vec<u8>> {
    let mut slots = vec![0; SLOT_COUNT];
    for (i, spelling) in spellings.iter().enumerate() {
        let slot = &mut slots[hash(spelling.as_bytes(), factors)];
        if *slot != 0 {
            return None;
        }
        *slot = u8::try_from(FIRST_CODE + i).expect("a code is a byte");
    }
    Some(slots)
}

/// A spelling of one byte has it as its first, its last and the one before.
fn hash(spelling: &[u8], [first, length, last, before]: [usize; 4]) -> usize {
    let n = spelling.len();
    let byte = |i: usize| usize::from(spelling[i]);
    (byte(0) * first + n * length + byte(n - 1) * last + byte(n.saturating_sub(2)) * before) % SLOT_COUNT
}
