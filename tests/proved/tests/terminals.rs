//! The proved terminals of tokens tell words and symbols apart as the reference does.

use compare::{cases, random};
use proved::terminals;
use reference::terminals::{classify, Terminal};
use reference::{tokens, TokenRow};

const FILES: u64 = 20_000;

/// Codes 1 to 5: an identifier and the literals; those from 6 on: the symbols and the words that clause 7.2 reserves.
const SAMPLES: [&str; 5] = ["x", "1", "1.", "''", "%1"];
const SYMBOLS: &str = "? . , ; : * + - = \\ / < > [ ] { } | ( ) <= <> >= <* := || ** :=: :<>:";
const WORDS: &str = "\
ABS ABSTRACT ACOS AGGREGATE ALIAS AND ANDOR ARRAY AS ASIN ATAN BAG BEGIN BINARY BLENGTH BOOLEAN BY CASE CONSTANT CONST_E \
CONTEXT COS DERIVE DIV ELSE END END_ALIAS END_CASE END_CONSTANT END_CONTEXT END_ENTITY END_FUNCTION END_IF END_LOCAL \
END_MODEL END_PROCEDURE END_REPEAT END_RULE END_SCHEMA END_TYPE ENTITY ENUMERATION ESCAPE EXISTS EXP FALSE FIXED FOR FORMAT \
FROM FUNCTION GENERIC HIBOUND HIINDEX IF IN INSERT INTEGER INVERSE LENGTH LIKE LIST LOBOUND LOCAL LOG LOG10 LOG2 LOGICAL \
LOINDEX MOD MODEL NOT NUMBER NVL ODD OF ONEOF OPTIONAL OR OTHERWISE PI PROCEDURE QUERY REAL REFERENCE REMOVE REPEAT RETURN \
ROLESOF RULE SCHEMA SELECT SELF SET SIN SIZEOF SKIP SQRT STRING SUBTYPE SUPERTYPE TAN THEN TO TRUE TYPE TYPEOF UNIQUE \
UNKNOWN UNTIL USE USEDIN VALUE VALUE_IN VALUE_UNIQUE VAR WHERE WHILE XOR";

/// The spellings of the codes from 1 on.
fn spellings() -> Vec<&'static str> {
    SAMPLES.into_iter().chain(SYMBOLS.split(' ')).chain(WORDS.split(' ')).collect()
}

/// What the reference makes of each code, by its spelling alone; code 0 is no terminal.
fn meanings() -> Vec<Terminal> {
    let meaning = |text: &str| {
        let found = classify(text.as_bytes(), &tokens::read(text.as_bytes()).unwrap());
        assert_eq!(found.len(), 1, "{text}");
        found[0]
    };
    [Terminal::End].into_iter().chain(spellings().into_iter().map(meaning)).collect()
}

fn columns(rows: &[TokenRow]) -> (Vec<u8>, Vec<u32>, Vec<u32>) {
    let starts = rows.iter().map(|row| row.start).collect();
    let lengths = rows.iter().map(|row| row.length).collect();
    (rows.iter().map(|row| row.kind).collect(), starts, lengths)
}

fn codes(bytes: &[u8], rows: &[TokenRow]) -> Vec<u8> {
    let (kinds, starts, lengths) = columns(rows);
    let mut out = vec![255; rows.len()];
    terminals(bytes, &kinds, &starts, &lengths, &mut out);
    out
}

/// Holds the terminals of a file to the reference's, and those of words and symbols to their spellings.
fn hold(bytes: &[u8], spellings: &[&str], meanings: &[Terminal]) {
    let Ok(rows) = tokens::read(bytes) else { return };
    let codes = codes(bytes, &rows);
    for ((row, &code), terminal) in rows.iter().zip(&codes).zip(classify(bytes, &rows)) {
        let text = tokens::text(bytes, row);
        assert_eq!(meanings[code as usize], terminal, "{}", text.escape_ascii());
        if code > 5 {
            assert!(text.eq_ignore_ascii_case(spellings[code as usize - 1].as_bytes()), "{}", text.escape_ascii());
        }
    }
}

#[test]
fn random_and_damaged_files_and_the_corpus() {
    let (spellings, meanings) = (spellings(), meanings());
    (0..FILES).for_each(|seed| hold(&random::file(seed), &spellings, &meanings));
    cases::all().iter().for_each(|case| hold(&case.input, &spellings, &meanings));
}

/// Each spelling in either case, and with a letter more, less or exchanged.
#[test]
fn words_and_their_neighbours() {
    let (spellings, meanings) = (spellings(), meanings());
    for (spelling, code) in spellings.iter().zip(1..) {
        for text in [spelling.to_string(), spelling.to_lowercase()] {
            let bytes = text.as_bytes();
            assert_eq!(codes(bytes, &tokens::read(bytes).unwrap()), [code], "{text}");
            for at in 0..=text.len() {
                for letter in b"aAeEnNsSzZ_0159" {
                    let (mut more, mut other) = (bytes.to_vec(), bytes.to_vec());
                    more.insert(at, *letter);
                    hold(&more, &spellings, &meanings);
                    if let Some(byte) = other.get_mut(at) {
                        *byte = *letter;
                        hold(&other, &spellings, &meanings);
                    }
                }
                hold(&bytes[at..], &spellings, &meanings);
                hold(&bytes[..at], &spellings, &meanings);
            }
        }
    }
}

/// Any columns may be lent: rows that point outside of the file, kinds that are none, columns of different lengths.
#[test]
fn any_columns() {
    let bytes = b"SCHEMA s; := x";
    let (kinds, starts, lengths) =
        ([1, 1, 6, 6, 0, 7, 255, 1, 6], [0, 7, 8, 10, 0, 0, 0, 14, 99], [6, 1, 1, 2, 6, 6, 6, 6, 1]);
    let expected = [125, 1, 9, 30, 0, 0, 0, 1, 0];
    for kinds_lent in [0, 4, 9] {
        for starts_lent in [0, 5, 9] {
            for lengths_lent in [0, 6, 9] {
                for out_lent in [0, 3, 9, 12] {
                    let mut out = [77; 12];
                    terminals(
                        bytes,
                        &kinds[..kinds_lent],
                        &starts[..starts_lent],
                        &lengths[..lengths_lent],
                        &mut out[..out_lent],
                    );
                    let rows = kinds_lent.min(starts_lent).min(lengths_lent).min(out_lent);
                    assert_eq!(out[..rows], expected[..rows]);
                    assert!(out[rows..].iter().all(|&entry| entry == 77));
                }
            }
        }
    }
}
