//! The proved parser gives what the reference's gives, on any terminals and with columns of any lengths.

use compare::{cases, random};
use proved::{parse, scan, terminals};
use reference::parser::{read, SyntaxRow};
use reference::terminals::classify;
use reference::{tokens, Refusal, TokenRow};

const FILES: u64 = 20_000;

fn byte(i: usize) -> u8 {
    0xa5 ^ i as u8
}

fn word(i: usize) -> u32 {
    0xdead_0000 ^ i as u32
}

/// A column of entries that no row has, and the same with the rows written as far as they fit.
fn column<T: Copy>(length: usize, pattern: fn(usize) -> T, rows: impl Iterator<Item = T>) -> [Vec<T>; 2] {
    let before: Vec<T> = (0..length).map(pattern).collect();
    let mut after = before.clone();
    after.iter_mut().zip(rows).for_each(|(entry, value)| *entry = value);
    [before, after]
}

/// The codes of a file's terminals, by the proved functions.
fn codes(bytes: &[u8], rows: &[TokenRow]) -> Vec<u8> {
    let (mut kinds, mut starts, mut lengths) = (vec![0; rows.len()], vec![0; rows.len()], vec![0; rows.len()]);
    scan(bytes, &mut kinds, &mut starts, &mut lengths).expect("tokens");
    let mut codes = vec![0; rows.len()];
    terminals(bytes, &kinds, &starts, &lengths, &mut codes);
    codes
}

/// Holds the proved parser to the rows or the refusal of the reference, with columns of the given lengths.
fn hold(seed: u64, codes: &[u8], expected: &Result<Vec<SyntaxRow>, Refusal>, lengths: [usize; 4]) {
    let rows: &[SyntaxRow] = expected.as_deref().unwrap_or_default();
    let [mut kinds, kinds_after] = column(lengths[0], byte, rows.iter().map(|row| row.kind));
    let [mut tokens, tokens_after] = column(lengths[1], word, rows.iter().map(|row| row.token));
    let [mut sizes, sizes_after] = column(lengths[2], word, rows.iter().map(|row| row.size));
    let [mut roles, roles_after] = column(lengths[3], word, rows.iter().map(|row| row.role.into()));
    let mut scratch: Vec<u64> = (0..codes.len() + 3).map(|i| !(i as u64)).collect();
    let outcome = parse(codes, &mut scratch, &mut kinds, &mut tokens, &mut sizes, &mut roles);
    let room = lengths.into_iter().min().unwrap();
    let answer = match expected {
        Ok(rows) if rows.len() > room => Err(Refusal { reply: 7, number: rows.len() as u64 }),
        Ok(rows) => Ok(rows.len()),
        Err(refusal) => Err(*refusal),
    };
    assert_eq!(outcome, answer, "seed {seed}, lengths {lengths:?}");
    let cleared = |(i, &word): (usize, &u64)| word == if i < codes.len() { 0 } else { !(i as u64) };
    assert!(scratch.iter().enumerate().all(cleared), "scratch, seed {seed}, lengths {lengths:?}");
    assert!(kinds == kinds_after, "kinds, seed {seed}, lengths {lengths:?}");
    assert!(tokens == tokens_after, "tokens, seed {seed}, lengths {lengths:?}");
    assert!(sizes == sizes_after, "sizes, seed {seed}, lengths {lengths:?}");
    assert!(roles == roles_after, "roles, seed {seed}, lengths {lengths:?}");
}

/// The rows of the terminals, or the token refused.
fn expected(bytes: &[u8], rows: &[TokenRow]) -> Result<Vec<SyntaxRow>, Refusal> {
    read(&classify(bytes, rows)).map_err(|stop| Refusal { reply: stop.reply, number: stop.token.into() })
}

/// Holds the parser on a file whose tokens can be read, with columns of many lengths; the reply.
fn hold_file(bytes: &[u8], seed: u64) -> Option<u32> {
    let rows = tokens::read(bytes).ok()?;
    let codes = codes(bytes, &rows);
    let expected = expected(bytes, &rows);
    let needed = expected.as_ref().map_or(rows.len(), Vec::len);
    let some = seed as usize % (needed + 2);
    for lengths in [[needed + 1; 4], [needed; 4], [0; 4], [some; 4], [needed, some, needed + 1, needed]] {
        hold(seed, &codes, &expected, lengths);
    }
    if needed < 60 {
        (0..needed + 2).for_each(|length| hold(seed, &codes, &expected, [length; 4]));
    }
    Some(expected.map_or_else(|refusal| refusal.reply, |_| 0))
}

#[test]
fn random_files() {
    let mut replies = [0; 8];
    for seed in 0..FILES {
        if let Some(reply) = hold_file(&random::file(seed), seed) {
            replies[reply as usize] += 1;
        }
    }
    assert!(replies[0] > 0 && replies[4] > 0 && replies[5] > 0, "replies {replies:?}");
}

#[test]
fn the_corpus() {
    let replies = cases::all().iter().zip(0..).filter_map(|(case, seed)| hold_file(&case.input, seed)).count();
    assert!(replies > 100, "{replies} cases with tokens");
}

#[test]
fn a_file_of_every_sort_of_declaration() {
    let text = br"SCHEMA Press;
CONSTANT
  stroke : INTEGER := step * 3;
  safe : LOGICAL := {0 < step <= 10} OR NOT (-2 ** kind.low = ?);
END_CONSTANT;
TYPE kind = ENUMERATION OF (low, high); END_TYPE;
TYPE any = SELECT (kind, part); WHERE ok : SELF <> ?; TRUE; END_TYPE;
ENTITY part SUBTYPE OF (whole);
  a, b : OPTIONAL REAL;
  c : kind;
DERIVE
  d : kind := low;
WHERE
  a < b;
END_ENTITY;
END_SCHEMA;
";
    assert_eq!(hold_file(text, 0), Some(0));
    assert_eq!(expected(text, &tokens::read(text).unwrap()).map(|rows| rows.len()), Ok(53));
}

/// Any bytes are codes: one that is no terminal is refused by 4, as is one that no text goes on with.
#[test]
fn any_codes() {
    let schema = [125, 1, 9, 73, 9];
    let none = &mut [][..];
    assert_eq!(parse(&schema, &mut [0; 5], none, &mut [], &mut [], &mut []), Err(Refusal { reply: 7, number: 2 }));
    for place in 0..=schema.len() {
        for code in 0..=255 {
            let mut codes = schema.to_vec();
            codes.insert(place, code);
            let outcome = parse(&codes, &mut [0; 9], &mut [0; 9], &mut [0; 9], &mut [0; 9], &mut [0; 9]);
            if let Err(refusal) = outcome {
                assert_eq!(refusal.reply, 4, "code {code} at {place}");
                assert!(refusal.number as usize >= place, "code {code} at {place}: {refusal:?}");
            }
            assert!(outcome.is_err(), "code {code} at {place}");
        }
    }
}

#[test]
fn long_lists_are_not_read() {
    let codes = vec![125; 65_537];
    let outcome = parse(&codes, &mut [], &mut [], &mut [], &mut [], &mut []);
    assert_eq!(outcome, Err(Refusal { reply: 1, number: 65_536 }));
}

/// Too little scratch is an answer of its own, and nothing is written.
#[test]
fn scratch_may_be_short() {
    let schema = [125, 1, 9, 73, 9];
    for length in 0..schema.len() {
        let (mut scratch, mut kinds, mut column) = (vec![7; length], [7; 9], [7; 9]);
        let outcome = parse(&schema, &mut scratch, &mut kinds, &mut column, &mut [7; 9], &mut [7; 9]);
        assert_eq!(outcome, Err(Refusal { reply: 255, number: 5 }), "{length} words");
        assert!(scratch.iter().all(|&word| word == 7) && kinds == [7; 9] && column == [7; 9], "{length} words");
    }
}
