//! Bytes to tokens: replies 1, 2 and 3.

use crate::{Level, Refusal, TokenRow, MAX_BYTES, MAX_STRING};

pub const WORD: u8 = 1;
pub const INTEGER: u8 = 2;
pub const REAL: u8 = 3;
pub const STRING: u8 = 4;
pub const BINARY: u8 = 5;
pub const SYMBOL: u8 = 6;

const UNFINISHED: u32 = 2;
const TOO_LARGE: u32 = 3;

const MAX_INTEGER: &[u8] = b"9223372036854775807";
const MAX_BITS: usize = 63;

/// What a byte outside remarks and literals begins.
#[derive(Clone, Copy, PartialEq, Eq)]
enum Class {
    Nothing,
    Space,
    Letter,
    Digit,
    Quote,
    Percent,
    /// A symbol that begins no longer one.
    Symbol,
    /// A symbol that may begin a longer one.
    LongSymbol,
    /// A symbol, unless it opens a remark.
    Remark,
}

const CLASSES: [Class; 256] = classes();

const fn classes() -> [Class; 256] {
    let mut table = [Class::Nothing; 256];
    let mut byte = 0;
    while byte < 256 {
        table[byte] = match byte as u8 {
            9..=13 | b' ' => Class::Space,
            b'a'..=b'z' | b'A'..=b'Z' => Class::Letter,
            b'0'..=b'9' => Class::Digit,
            b'\'' => Class::Quote,
            b'%' => Class::Percent,
            b'?' | b'.' | b',' | b';' | b'+' | b'=' | b'\\' | b'/' | b'[' | b']' | b'{' | b'}' | b')' => Class::Symbol,
            b':' | b'*' | b'<' | b'>' | b'|' => Class::LongSymbol,
            b'-' | b'(' => Class::Remark,
            _ => Class::Nothing,
        };
        byte += 1;
    }
    table
}

/// Whether a byte continues a word.
const IN_WORD: [bool; 256] = in_word();

const fn in_word() -> [bool; 256] {
    let mut table = [false; 256];
    let mut byte = 0;
    while byte < 256 {
        table[byte] = matches!(CLASSES[byte], Class::Letter | Class::Digit) || byte as u8 == b'_';
        byte += 1;
    }
    table
}

/// The bytes of a token; none where a row points outside of the file.
pub fn text<'a>(bytes: &'a [u8], token: &TokenRow) -> &'a [u8] {
    let start = token.start as usize;
    bytes.get(start..start.saturating_add(token.length as usize)).unwrap_or_default()
}

/// All tokens of a file, or the first refusal in the text.
pub fn read(bytes: &[u8]) -> Result<Vec<TokenRow>, Refusal> {
    read_at(Level::NEWEST, bytes)
}

/// The same by the rules of a level.
pub fn read_at(level: Level, bytes: &[u8]) -> Result<Vec<TokenRow>, Refusal> {
    if bytes.len() > MAX_BYTES {
        return Err(Refusal { reply: 1, number: MAX_BYTES as u64 });
    }
    let longest = if level < Level::Strings { MAX_BYTES } else { MAX_STRING };
    let mut tokens = Vec::with_capacity(bytes.len() / 4 + 8);
    let mut at = 0;
    while let Some(&byte) = bytes.get(at) {
        let (kind, end) = match CLASSES[byte as usize] {
            Class::Space => {
                at += 1;
                continue;
            }
            Class::Letter => (WORD, word_end(bytes, at)),
            Class::Digit => number(bytes, at)?,
            Class::Quote => (STRING, string_end(bytes, at, longest)?),
            Class::Percent => (BINARY, binary_end(bytes, at)?),
            Class::Symbol => (SYMBOL, at + 1),
            Class::LongSymbol => (SYMBOL, at + symbol_length(&bytes[at..])),
            Class::Remark => match remark_end(bytes, at)? {
                Some(end) => {
                    at = end;
                    continue;
                }
                None => (SYMBOL, at + 1),
            },
            Class::Nothing => return Err(refusal(UNFINISHED, at)),
        };
        tokens.push(TokenRow { kind, start: at as u32, length: (end - at) as u32 });
        at = end;
    }
    Ok(tokens)
}

fn refusal(reply: u32, start: usize) -> Refusal {
    Refusal { reply, number: start as u64 }
}

/// The first place from `from` on whose byte is not of the sort asked for.
fn run_end(bytes: &[u8], from: usize, belongs: impl Fn(u8) -> bool) -> usize {
    bytes[from..].iter().position(|&byte| !belongs(byte)).map_or(bytes.len(), |length| from + length)
}

fn word_end(bytes: &[u8], start: usize) -> usize {
    run_end(bytes, start + 1, |byte| IN_WORD[byte as usize])
}

fn digits_end(bytes: &[u8], from: usize) -> usize {
    run_end(bytes, from, |byte| byte.is_ascii_digit())
}

/// The kind and end of an integer or real literal.
fn number(bytes: &[u8], start: usize) -> Result<(u8, usize), Refusal> {
    let end = digits_end(bytes, start);
    if bytes.get(end) == Some(&b'.') {
        let end = digits_end(bytes, end + 1);
        return Ok((REAL, exponent_end(bytes, end)));
    }
    if exceeds_integer(&bytes[start..end]) {
        return Err(refusal(TOO_LARGE, start));
    }
    Ok((INTEGER, end))
}

/// The end of an exponent at `from`; without digits it is no part of the real.
fn exponent_end(bytes: &[u8], from: usize) -> usize {
    let digits = match bytes[from..] {
        [b'e' | b'E', b'+' | b'-', b'0'..=b'9', ..] => from + 2,
        [b'e' | b'E', b'0'..=b'9', ..] => from + 1,
        _ => return from,
    };
    digits_end(bytes, digits)
}

fn exceeds_integer(digits: &[u8]) -> bool {
    let zeros = digits.iter().take_while(|&&digit| digit == b'0').count();
    let digits = &digits[zeros..];
    digits.len() > MAX_INTEGER.len() || (digits.len() == MAX_INTEGER.len() && digits > MAX_INTEGER)
}

/// The end of a string whose value, each pair of quotes counted once, has at most so many bytes.
fn string_end(bytes: &[u8], start: usize, longest: usize) -> Result<usize, Refusal> {
    let mut at = start + 1;
    let mut pairs = 0;
    loop {
        at = run_end(bytes, at, |byte| byte != b'\'' && (32..=126).contains(&byte));
        match bytes[at..] {
            [b'\'', b'\'', ..] => (at, pairs) = (at + 2, pairs + 1),
            [b'\'', ..] if at - start - 1 - pairs > longest => return Err(refusal(TOO_LARGE, start)),
            [b'\'', ..] => return Ok(at + 1),
            _ => return Err(refusal(UNFINISHED, start)),
        }
    }
}

fn binary_end(bytes: &[u8], start: usize) -> Result<usize, Refusal> {
    let end = run_end(bytes, start + 1, |byte| matches!(byte, b'0' | b'1'));
    match end - start - 1 {
        0 => Err(refusal(UNFINISHED, start)),
        1..=MAX_BITS => Ok(end),
        _ => Err(refusal(TOO_LARGE, start)),
    }
}

/// The end of the remark that begins at `start`, if one does.
fn remark_end(bytes: &[u8], start: usize) -> Result<Option<usize>, Refusal> {
    match bytes[start..] {
        [b'-', b'-', ..] => Ok(Some(run_end(bytes, start + 2, |byte| byte != b'\n'))),
        [b'(', b'*', ..] => embedded_remark_end(bytes, start).map(Some),
        _ => Ok(None),
    }
}

fn embedded_remark_end(bytes: &[u8], start: usize) -> Result<usize, Refusal> {
    let mut open = 1;
    let mut at = start + 2;
    while open > 0 {
        at = run_end(bytes, at, |byte| byte != b'(' && byte != b'*');
        match bytes[at..] {
            [b'(', b'*', ..] => (open, at) = (open + 1, at + 2),
            [b'*', b')', ..] => (open, at) = (open - 1, at + 2),
            [_, ..] => at += 1,
            [] => return Err(refusal(UNFINISHED, start)),
        }
    }
    Ok(at)
}

/// The length of the longest symbol that `rest` begins with.
fn symbol_length(rest: &[u8]) -> usize {
    match rest {
        [b':', b'<', b'>', b':', ..] => 4,
        [b':', b'=', b':', ..] => 3,
        [b':' | b'>', b'=', ..] | [b'<', b'=' | b'>' | b'*', ..] | [b'|', b'|', ..] | [b'*', b'*', ..] => 2,
        _ => 1,
    }
}
