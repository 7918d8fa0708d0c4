//! The proved values of integer, binary and string literals, at any place of any bytes.

use compare::random::{self, Rng};
use proved::{binary, integer, string_bytes, string_length};
use reference::tokens::{self, BINARY, INTEGER, STRING};

const FILES: u64 = 5_000;
const PARTS: usize = 200_000;
/// The least number that no literal reaches.
const BOUND: u128 = 1 << 63;

/// The number that bytes stand for in a base, as far as the bound; what is below a digit counts as 0.
fn numeral(bytes: &[u8], base: u128) -> u64 {
    let value = bytes.iter().fold(0, |n, byte| BOUND.min(n * base + u128::from(byte.saturating_sub(b'0'))));
    value as u64
}

/// What stands between the first byte and the last, a quote and the byte behind it made one.
fn value(literal: &[u8]) -> Vec<u8> {
    let [_, between @ .., _] = literal else { return Vec::new() };
    let mut bytes = between.iter();
    let mut value = Vec::new();
    while let Some(&byte) = bytes.next() {
        value.push(byte);
        if byte == b'\'' {
            bytes.next();
        }
    }
    value
}

fn part(bytes: &[u8], start: usize, length: usize) -> &[u8] {
    let rest = bytes.get(start..).unwrap_or_default();
    rest.get(..length).unwrap_or(rest)
}

fn told(bytes: &[u8], start: usize, length: usize) -> String {
    format!("{length} bytes from {start} on: {}", bytes.escape_ascii())
}

fn hold(bytes: &[u8], start: usize, length: usize) {
    let (part, told) = (part(bytes, start, length), || told(bytes, start, length));
    assert_eq!(integer(bytes, start, length), numeral(part, 10), "{}", told());
    assert_eq!(binary(bytes, start, length), numeral(part.get(1..).unwrap_or_default(), 2), "{}", told());
    assert_eq!(string_length(bytes, start, length), value(part).len(), "{}", told());
}

/// The value of a string goes from `at` on into a buffer of so many bytes, as far as it goes, and no other byte is written. How many it has.
fn hold_string(bytes: &[u8], start: usize, length: usize, buffer: usize, at: usize) -> usize {
    let value = value(part(bytes, start, length));
    let mut out: Vec<u8> = (0..buffer + 2).map(|i| 0x80 | i as u8).collect();
    let mut wanted = out.clone();
    wanted[..buffer].iter_mut().skip(at).zip(&value).for_each(|(place, &byte)| *place = byte);
    let told = || format!("{}, from {at} on of {buffer}", told(bytes, start, length));
    assert_eq!(string_bytes(bytes, start, length, &mut out[..buffer], at), value.len(), "{}", told());
    assert_eq!(out, wanted, "{}", told());
    value.len()
}

/// Each string goes into a buffer of its size too, and what it becomes is what stands between its quotes with each pair of them made one.
#[test]
fn literals_of_random_files() {
    let (mut literals, mut pairs, mut rng) = ([0; 3], 0, Rng::new(0));
    for seed in 0..FILES {
        let bytes = random::file(seed);
        for row in tokens::read(&bytes).unwrap_or_default() {
            let (start, length) = (row.start as usize, row.length as usize);
            let Some(sort) = [INTEGER, BINARY, STRING].iter().position(|&kind| kind == row.kind) else { continue };
            literals[sort] += 1;
            hold(&bytes, start, length);
            if row.kind == STRING {
                let needed = hold_string(&bytes, start, length, length - 2, 0);
                hold_string(&bytes, start, length, rng.below(2 * length), rng.below(length));
                let quotes = bytes[start + 1..start + length - 1].iter().filter(|&&byte| byte == b'\'').count();
                assert_eq!(needed + quotes / 2, length - 2, "{}", told(&bytes, start, length));
                pairs += quotes / 2;
            }
        }
    }
    assert!(literals.iter().all(|&often| often > 5_000) && pairs > 1_000, "{literals:?} literals, {pairs} pairs");
}

#[test]
fn any_part_of_any_bytes() {
    let texts: [&[u8]; 11] = [
        b"",
        b"%",
        b"9223372036854775807",
        b"09223372036854775808",
        b"%0111111111111111111111111111111111111111111111111111111111111111",
        b"%1000000000000000000000000000000000000000000000000000000000000000",
        b"\x00\xff0/:9a%1\xff\xff\xff",
        b"'it''s'",
        b"''''''''",
        b"'a'b''c'",
        b"x'\x00''\xff'''y",
    ];
    for bytes in texts {
        for start in (0..=bytes.len() + 1).chain([usize::MAX]) {
            for length in (0..=bytes.len() + 1).chain([usize::MAX]) {
                hold(bytes, start, length);
                for (buffer, at) in [(0, 0), (1, 0), (4, 1), (4, 3), (4, 4), (4, usize::MAX), (80, 0), (80, 9)] {
                    hold_string(bytes, start, length, buffer, at);
                }
            }
        }
    }
}

/// Bytes of which many are quotes; a part of them into some places of a buffer.
#[test]
fn any_part_of_random_bytes() {
    let (mut rng, mut cut, mut whole) = (Rng::new(0), 0, 0);
    for _ in 0..PARTS {
        let quotes = rng.between(1, 6);
        let byte = |rng: &mut Rng| if rng.one_in(quotes) { b'\'' } else { rng.draw() as u8 };
        let bytes: Vec<u8> = (0..rng.below(40)).map(|_| byte(&mut rng)).collect();
        let [start, length, buffer, at] = [rng.below(12), rng.below(44), rng.below(50), rng.below(20)];
        hold(&bytes, start, length);
        let needed = hold_string(&bytes, start, length, buffer, at);
        *(if at + needed > buffer { &mut cut } else { &mut whole }) += usize::from(needed > 1);
    }
    assert!(cut > PARTS / 10 && whole > PARTS / 10, "{cut} cut, {whole} whole");
}
