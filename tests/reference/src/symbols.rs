//! Interning: one number for each spelling, letters without case. And lists of what each spelling names.

use std::ops::Range;

use crate::terminals::Terminal;
use crate::{tokens, words, TokenRow};

/// The symbol of each token that is an identifier (0 at other tokens, where it means nothing).
#[derive(Debug)]
pub struct Symbols {
    of_token: Vec<u32>,
    count: usize,
}

impl Symbols {
    pub fn of_token(&self, token: u32) -> u32 {
        self.of_token[token as usize]
    }

    pub fn count(&self) -> usize {
        self.count
    }
}

/// A spelling at its first place: a short one is told by its packed word, a longer one by its hash and text.
struct Spelling<'a> {
    key: u128,
    long: &'a [u8],
}

pub fn intern(bytes: &[u8], tokens: &[TokenRow], terminals: &[Terminal]) -> Symbols {
    let identifiers = terminals.iter().filter(|&&terminal| terminal == Terminal::Identifier).count();
    let mut interner = Interner::new(identifiers);
    let of_token = tokens
        .iter()
        .zip(terminals)
        .map(|(token, &terminal)| match terminal {
            Terminal::Identifier => interner.symbol(Spelling::new(bytes, token)),
            _ => 0,
        })
        .collect();
    Symbols { of_token, count: interner.spellings.len() }
}

impl<'a> Spelling<'a> {
    fn new(bytes: &'a [u8], token: &TokenRow) -> Self {
        match words::packed_token(bytes, token) {
            Some(key) => Spelling { key, long: &[] },
            None => {
                let long = tokens::text(bytes, token);
                Spelling { key: u128::from(hash(long)), long }
            }
        }
    }
}

/// Open addressing with linear probing; a slot holds a symbol plus one, or 0.
struct Interner<'a> {
    slots: Vec<u32>,
    shift: u32,
    spellings: Vec<Spelling<'a>>,
}

impl<'a> Interner<'a> {
    fn new(words: usize) -> Self {
        let size = (2 * words).next_power_of_two().max(2);
        Interner { slots: vec![0; size], shift: 64 - size.trailing_zeros(), spellings: Vec::new() }
    }

    fn symbol(&mut self, spelling: Spelling<'a>) -> u32 {
        let mut slot = (words::mixed(spelling.key) >> self.shift) as usize;
        while let Some(symbol) = self.slots[slot].checked_sub(1) {
            let known = &self.spellings[symbol as usize];
            if known.key == spelling.key && known.long.eq_ignore_ascii_case(spelling.long) {
                return symbol;
            }
            slot = (slot + 1) & (self.slots.len() - 1);
        }
        self.spellings.push(spelling);
        self.slots[slot] = self.spellings.len() as u32;
        self.spellings.len() as u32 - 1
    }
}

/// A hash of a long word without case.
fn hash(text: &[u8]) -> u64 {
    text.chunks(8).fold(text.len() as u64, |hash, chunk| words::mixed(u128::from(hash) << 64 | words::packed(chunk)))
}

/// Something that a symbol names, in the scope where it does.
#[derive(Clone, Copy, Debug, Default, PartialEq, Eq)]
pub struct Entry {
    pub scope: u32,
    pub value: u32,
}

/// The entries of each symbol, in the order in which they were given; scopes must not fall.
#[derive(Debug)]
pub struct Index {
    ends: Vec<u32>,
    entries: Vec<Entry>,
}

impl Index {
    /// Groups entries by symbol: a counting sort that keeps their order.
    pub fn new(symbols: usize, given: impl Iterator<Item = (u32, Entry)> + Clone) -> Self {
        let mut ends = vec![0u32; symbols + 1];
        for (symbol, _) in given.clone() {
            ends[symbol as usize + 1] += 1;
        }
        let mut total = 0;
        for end in &mut ends {
            total += *end;
            *end = total;
        }
        // `ends[s]` is now where the group of s starts, and moves to its end as the group fills.
        let mut entries = vec![Entry::default(); total as usize];
        for (symbol, entry) in given {
            let at = &mut ends[symbol as usize];
            entries[*at as usize] = entry;
            *at += 1;
        }
        ends.pop();
        Index { ends, entries }
    }

    /// All entries of a symbol.
    pub fn group(&self, symbol: u32) -> &[Entry] {
        let symbol = symbol as usize;
        let start = symbol.checked_sub(1).map_or(0, |before| self.ends[before]);
        &self.entries[start as usize..self.ends[symbol] as usize]
    }

    pub fn groups(&self) -> impl Iterator<Item = &[Entry]> {
        (0..self.ends.len() as u32).map(|symbol| self.group(symbol))
    }

    /// The entries of a symbol in the given scopes.
    pub fn within(&self, symbol: u32, scopes: Range<u32>) -> &[Entry] {
        let group = self.group(symbol);
        let start = group.partition_point(|entry| entry.scope < scopes.start);
        let end = start + group[start..].partition_point(|entry| entry.scope < scopes.end);
        &group[start..end]
    }

    /// The first entry of a symbol in one scope.
    pub fn find(&self, symbol: u32, scope: u32) -> Option<u32> {
        let group = self.group(symbol);
        let at = group.partition_point(|entry| entry.scope < scope);
        group.get(at).filter(|entry| entry.scope == scope).map(|entry| entry.value)
    }
}
