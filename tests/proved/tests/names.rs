//! The proved interning and dictionary: the least identifier of a spelling, the least entry with a key and those after it.

use compare::cases;
use compare::hostile::{families, Family};
use compare::random::{self, Rng};
use proved::{build, codes, find, intern, next_of, symbol_of};
use reference::{symbols, terminals, tokens, TokenRow};
use std::collections::HashMap;

const FILES: u64 = 10_000;
const DICTIONARIES: u64 = 5_000;
/// What columns and scratch hold before a call.
const BEFORE: u32 = 0xdead_beef;
/// The terminal of an identifier.
const IDENTIFIER: u8 = 1;
/// How many entries fill a chain, and how many chains a name may be on.
const FULL: usize = 8;
const ROUNDS: usize = 8;

/// For each identifier the least one that is spelled alike, and for any other token its own number; tokens past the
/// terminals are no identifiers.
fn least(words: &[Vec<u8>], terminals: &[u8]) -> Vec<u32> {
    let mut first = HashMap::new();
    let terminals = terminals.iter().copied().chain(std::iter::repeat(0));
    let entries = (0..).zip(words).zip(terminals);
    entries
        .map(
            |((token, word), terminal)| {
                if terminal == IDENTIFIER {
                    *first.entry(word).or_insert(token)
                } else {
                    token
                }
            },
        )
        .collect()
}

/// The same of identifiers alone, by the reference's symbols.
fn least_by_reference(bytes: &[u8], rows: &[TokenRow]) -> Vec<(usize, u32)> {
    let terminals = terminals::classify(bytes, rows);
    let symbols = symbols::intern(bytes, rows, &terminals);
    let mut first = HashMap::new();
    let identifiers = (0..rows.len()).filter(|&token| terminals[token] == terminals::Terminal::Identifier);
    identifiers.map(|token| (token, *first.entry(symbols.of_token(token as u32)).or_insert(token as u32))).collect()
}

/// The symbols of tokens with any terminals, and the symbol of each of their words.
fn hold_with(bytes: &[u8], rows: &[TokenRow], terminals: &[u8], buckets: usize) -> Vec<u32> {
    let starts: Vec<u32> = rows.iter().map(|row| row.start).collect();
    let lengths: Vec<u32> = rows.iter().map(|row| row.length).collect();
    let words: Vec<Vec<u8>> = rows.iter().map(|row| tokens::text(bytes, row).to_ascii_lowercase()).collect();
    let (mut symbols, mut heads, mut next) =
        (vec![BEFORE; rows.len() + 1], vec![BEFORE; buckets], vec![BEFORE; rows.len() + 1]);
    assert!(intern(bytes, &starts, &lengths, terminals, &mut symbols, &mut heads, &mut next));
    assert_eq!((symbols.pop(), next.pop()), (Some(BEFORE), Some(BEFORE)));
    assert_eq!(symbols, least(&words, terminals), "{buckets} buckets: {}", bytes.escape_ascii());
    let is_identifier = |token: usize| terminals.get(token) == Some(&IDENTIFIER);
    let is_first = |token: usize| is_identifier(token) && symbols[token] == token as u32;
    assert!((0..rows.len()).all(|token| is_first(token) != (next[token] == BEFORE)));
    let mut known = HashMap::new();
    for token in (0..rows.len()).filter(|&token| is_identifier(token)) {
        known.entry(&words[token]).or_insert(token);
    }
    for word in &words {
        let found = symbol_of(bytes, &starts, &lengths, &heads, &next, &word.to_ascii_uppercase());
        assert_eq!(found, known.get(word).copied(), "{}: {}", word.escape_ascii(), bytes.escape_ascii());
    }
    let other = symbol_of(bytes, &starts, &lengths, &heads, &next, b"no such w\xc3\xb6rd");
    assert_eq!(other, None);
    symbols
}

fn hold(bytes: &[u8], buckets: usize) {
    let Ok(rows) = tokens::read(bytes) else { return };
    let words = terminals::classify(bytes, &rows);
    let codes: Vec<u8> =
        words.iter().map(|&word| if word == terminals::Terminal::Identifier { IDENTIFIER } else { 9 }).collect();
    let symbols = hold_with(bytes, &rows, &codes, buckets);
    for (token, first) in least_by_reference(bytes, &rows) {
        assert_eq!(symbols[token], first, "token {token}: {}", bytes.escape_ascii());
    }
}

#[test]
fn identifiers_of_files_are_interned() {
    for seed in 0..FILES {
        let file = random::file(seed);
        hold(&file, if file.len() < 400 { 1 + seed as usize % 9 } else { 4_096 });
    }
    cases::all().iter().for_each(|case| hold(&case.input, 512));
}

/// Whatever the terminals say is an identifier is interned, a reserved word or a symbol too; a column that is too short
/// ends the identifiers.
#[test]
fn any_terminals_are_followed() {
    for seed in 0..FILES {
        let (file, mut rng) = (random::file(seed), Rng::new(seed));
        let Ok(rows) = tokens::read(&file) else { continue };
        let length = if rng.one_in(2) { rows.len() + 1 } else { rng.below(rows.len() + 1) };
        let terminals: Vec<u8> = (0..length).map(|_| rng.below(3) as u8).collect();
        hold_with(&file, &rows, &terminals, 1 + rng.below(64));
    }
}

/// Words that have one hash (`0` and `p` count alike in it), words that differ in case alone, words of one to nine bytes
/// and longer ones, and words that come again and again, in any order.
#[test]
fn words_that_collide_are_told_apart() {
    let mut rng = Rng::new(0);
    let mut words: Vec<String> = (0..512).map(|n| (0..9).map(|i| ["c0", "cp"][n >> i & 1]).collect()).collect();
    words.extend((0..300).map(|n| format!("entity_{n}")));
    words.extend((1..40).flat_map(|n| ["a".repeat(n), "b".repeat(n) + "a", "a".repeat(n) + "b"]));
    words
        .extend(["schema", "end_schema", "a", "ab", "abc", "%101", "%0101", "12", "'s'", "+", ":=:"].map(String::from));
    for buckets in [4_096, 61, 1] {
        let mut text = Vec::new();
        for _ in 0..3_000 {
            let word = words[rng.below(words.len())].bytes();
            text.extend(word.map(|byte| if rng.one_in(2) { byte.to_ascii_uppercase() } else { byte }));
            text.push(b' ');
        }
        assert_eq!(tokens::read(&text).map(|rows| rows.len()), Ok(3_000));
        hold(&text, buckets);
    }
}

/// The buckets whose chains have an entry where these tokens are interned by themselves.
fn buckets_of(file: &[u8], rows: &[TokenRow]) -> Vec<usize> {
    let starts: Vec<u32> = rows.iter().map(|row| row.start).collect();
    let lengths: Vec<u32> = rows.iter().map(|row| row.length).collect();
    let terminals = vec![IDENTIFIER; rows.len()];
    let (mut symbols, mut heads, mut next) = (vec![0; rows.len()], vec![0; 8_192], vec![0; rows.len()]);
    assert!(intern(file, &starts, &lengths, &terminals, &mut symbols, &mut heads, &mut next));
    (0..heads.len()).filter(|&bucket| heads[bucket] != 0).collect()
}

/// The identifiers of a hostile file.
fn identifiers_of(family: &str) -> (Vec<u8>, Vec<TokenRow>) {
    let found = families().into_iter().find(|Family { name, .. }| *name == family);
    let file = (found.expect("a family").file)(random::LARGEST);
    let rows = tokens::read(&file).expect("tokens");
    let codes = codes(&file, rows.len());
    let identifiers = rows.into_iter().zip(codes).filter(|&(_, code)| code == IDENTIFIER).map(|(row, _)| row).collect();
    (file, identifiers)
}

/// The hostile files whose names are to fall together: as many of them as a chain holds use one bucket, the same for all.
#[test]
fn hostile_names_fall_together() {
    let families = ["long names of one hash", "short names of one bucket", "one name behind many of its bucket"];
    for (family, names) in families.into_iter().zip([4_000, 7_000, 3_500]) {
        let (file, identifiers) = identifiers_of(family);
        // The first three are the schema, its type and an item `i`.
        let buckets: Vec<_> = identifiers[3..][..names].chunks(FULL).map(|rows| buckets_of(&file, rows)).collect();
        assert!(buckets[0].len() == 1 && buckets.iter().all(|bucket| *bucket == buckets[0]), "{family}");
    }
    let (file, identifiers) = identifiers_of("one name behind many of its bucket");
    assert_eq!(buckets_of(&file, &identifiers[2..4]).len(), 1);
}

/// All chains of one name are full before it comes: with one entry more than that, they are no more than it has rounds.
#[test]
fn hostile_chains_are_full() {
    let (file, identifiers) = identifiers_of("one name behind full chains");
    assert_eq!(tokens::text(&file, &identifiers[2 + ROUNDS * FULL]), b"i");
    assert_eq!(buckets_of(&file, &identifiers[2..][..=ROUNDS * FULL]).len(), ROUNDS);
}

/// Bytes that differ in bit 5 alone, as the two cases of a letter do, and are no letters: they are spelled apart.
#[test]
fn bytes_of_any_sort_are_told_apart() {
    let word = |n: u32| [b'a', 64 + (n % 64) as u8, b'c', 64 + (n / 64 % 64) as u8, b'e', 32 * (n % 8) as u8];
    let bytes: Vec<u8> = (0..4_096).flat_map(word).collect();
    for length in 1..=6 {
        let rows: Vec<TokenRow> = (0..4_096).map(|n| TokenRow { kind: 1, start: 6 * n, length }).collect();
        hold_with(&bytes, &rows, &[IDENTIFIER; 4_096], 4_096);
    }
}

/// Tokens that reach past the bytes are spelled by what is there; without room nothing is stored.
#[test]
fn any_columns_are_interned_or_refused() {
    let bytes = b"ab AB a";
    let (starts, lengths, terminals) = ([0, 3, 6, 6, 9, 0], [2, 2, 1, 99, 5, 0], [IDENTIFIER; 6]);
    let expected = [0, 0, 2, 2, 4, 4];
    for [starts_lent, lengths_lent, symbols_lent, heads_lent, next_lent] in [
        [6, 6, 6, 1, 6],
        [6, 6, 8, 9, 9],
        [0, 0, 0, 1, 0],
        [6, 5, 6, 1, 6],
        [6, 6, 5, 1, 6],
        [6, 6, 6, 0, 6],
        [6, 6, 6, 1, 5],
    ] {
        let (mut symbols, mut heads, mut next) =
            (vec![BEFORE; symbols_lent], vec![BEFORE; heads_lent], vec![BEFORE; next_lent]);
        let lent = (&starts[..starts_lent], &lengths[..lengths_lent]);
        let done = intern(bytes, lent.0, lent.1, &terminals, &mut symbols, &mut heads, &mut next);
        let room = starts_lent <= lengths_lent.min(symbols_lent).min(next_lent) && heads_lent > 0;
        assert_eq!(done, room);
        let stored = if done { starts_lent } else { 0 };
        assert_eq!(symbols[..stored], expected[..stored]);
        assert!(symbols[stored..].iter().all(|&symbol| symbol == BEFORE));
        assert!(next[stored.min(next_lent)..].iter().all(|&link| link == BEFORE));
        assert!(done || heads.iter().all(|&head| head == BEFORE));
    }
}

/// With anything in heads and next a search ends, and a token that it gives is spelled like the word.
#[test]
fn any_chains_of_symbols_are_searched() {
    let bytes = b"ab AB a b";
    let (starts, lengths) = ([0, 3, 6, 8], [2, 2, 1, 1]);
    for seed in 0..DICTIONARIES {
        let mut rng = Rng::new(seed);
        let column = |rng: &mut Rng| -> Vec<u32> {
            let length = rng.below(7);
            (0..length).map(|_| if rng.below(9) == 0 { u32::MAX } else { rng.below(6) as u32 }).collect()
        };
        let (heads, next) = (column(&mut rng), column(&mut rng));
        let (starts, lengths) = (&starts[..rng.below(5)], &lengths[..rng.below(5)]);
        for word in [&b"Ab"[..], b"A", b"c", b""] {
            if let Some(token) = symbol_of(bytes, starts, lengths, &heads, &next, word) {
                let (start, length) = (starts[token] as usize, lengths[token] as usize);
                assert!(bytes[start..start + length].eq_ignore_ascii_case(word));
            }
        }
    }
}

/// Keys of few values, so that many are alike; some are 0.
fn keys(rng: &mut Rng) -> Vec<u64> {
    let (length, values) = (rng.below(60), 1 + rng.below(20));
    (0..length).map(|_| rng.below(values) as u64 * 0x1_0000_0001).collect()
}

/// Each key's least entry, and the next of each entry; then keys that no entry has.
fn hold_keys(keys: &[u64], buckets: usize, spare: usize) {
    let (mut heads, mut next) = (vec![BEFORE; buckets], vec![BEFORE; keys.len() + spare]);
    assert!(build(keys, &mut heads, &mut next));
    let (mut first, mut later) = (HashMap::new(), vec![None; keys.len() + 2]);
    for (at, &key) in keys.iter().enumerate().rev().filter(|(_, &key)| key != 0) {
        later[at] = first.insert(key, at);
    }
    for key in keys.iter().copied().chain([0, 9, u64::MAX]) {
        assert_eq!(find(keys, &heads, &next, key), first.get(&key).copied(), "key {key} of {keys:?}");
    }
    for (at, &later) in later.iter().enumerate() {
        assert_eq!(next_of(keys, &next, at), later, "after {at} of {keys:?}");
    }
}

#[test]
fn entries_are_found_by_their_keys() {
    for seed in 0..DICTIONARIES {
        let mut rng = Rng::new(seed);
        let keys = keys(&mut rng);
        hold_keys(&keys, 1 + rng.below(30), rng.below(3));
    }
}

/// A scope and a symbol; all alike; all different; some 0; a few that come again and again.
#[test]
fn many_entries_are_found_by_their_keys() {
    let sorts: [fn(u64) -> u64; 5] =
        [|i| (i / 50 + 1) * 65_536 + i * i % 614, |_| 77, |i| i * 65_536 + 1, |i| i % 3, |i| i % 10 * 4_294_967_296];
    for sort in sorts {
        let keys: Vec<u64> = (0..3_014).map(sort).collect();
        [4_096, 7, 1].into_iter().for_each(|buckets| hold_keys(&keys, buckets, 0));
    }
}

/// With anything in heads and next a search ends, and an entry that it gives has the key.
#[test]
fn any_chains_are_searched() {
    for seed in 0..DICTIONARIES {
        let mut rng = Rng::new(seed);
        let keys = keys(&mut rng);
        let column = |rng: &mut Rng| -> Vec<u32> {
            let length = rng.below(60);
            (0..length).map(|_| if rng.one_in(9) { u32::MAX } else { rng.below(62) as u32 }).collect()
        };
        let (heads, next) = (column(&mut rng), column(&mut rng));
        for &key in &keys {
            assert!(find(&keys, &heads, &next, key).is_none_or(|entry| keys[entry] == key));
        }
        for at in 0..keys.len() {
            assert!(next_of(&keys, &next, at).is_none_or(|entry| entry > at && keys[entry] == keys[at]));
        }
    }
}

#[test]
fn a_dictionary_without_room_is_left_alone() {
    for (heads_lent, next_lent) in [(0, 3), (2, 2), (0, 0)] {
        let (mut heads, mut next) = (vec![BEFORE; heads_lent], vec![BEFORE; next_lent]);
        assert!(!build(&[1, 2, 1], &mut heads, &mut next));
        assert!(heads.iter().chain(&next).all(|&entry| entry == BEFORE));
    }
}
