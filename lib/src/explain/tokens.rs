//! The tokens of a file (T2 to T16), without the limits on them.

use crate::codes::TokenKind;
use std::ops::Range;

#[derive(Clone, Copy, Debug, PartialEq, Eq)]
pub struct Token {
    pub kind: TokenKind,
    pub start: usize,
    pub end: usize,
}

impl Token {
    pub fn span(&self) -> Range<usize> {
        self.start..self.end
    }

    pub fn text<'a>(&self, src: &'a [u8]) -> &'a [u8] {
        src.get(self.span()).unwrap_or_default()
    }
}

/// The tokens up to the end, or up to where none begins.
pub fn read(src: &[u8]) -> Vec<Token> {
    let mut tokens = Vec::new();
    let mut start = blank_end(src, 0);
    while let Some((kind, length)) = src.get(start..).and_then(token) {
        let end = start + length;
        tokens.push(Token { kind, start, end });
        start = blank_end(src, end);
    }
    tokens
}

/// The end of the space and remarks that stand at a place.
fn blank_end(src: &[u8], mut at: usize) -> usize {
    loop {
        at += match src.get(at..) {
            Some([9..=13 | b' ', ..]) => 1,
            Some(rest @ [b'-', b'-', ..]) => run(rest, |byte| byte != b'\n'),
            Some(rest @ [b'(', b'*', ..]) => match remark(rest) {
                Some(length) => length,
                None => return at,
            },
            _ => return at,
        };
    }
}

/// The length of the remark that a text begins with, if it is closed.
pub fn remark(text: &[u8]) -> Option<usize> {
    let (mut open, mut at) = (1, 2);
    while open > 0 {
        match text.get(at..)? {
            [b'(', b'*', ..] => (open, at) = (open + 1, at + 2),
            [b'*', b')', ..] => (open, at) = (open - 1, at + 2),
            [_, ..] => at += 1,
            [] => return None,
        }
    }
    Some(at)
}

/// The token that a text begins with: its kind and its length.
fn token(text: &[u8]) -> Option<(TokenKind, usize)> {
    Some(match text.first()? {
        b'a'..=b'z' | b'A'..=b'Z' => (TokenKind::Word, run(text, |byte| byte.is_ascii_alphanumeric() || byte == b'_')),
        b'0'..=b'9' => number(text),
        b'\'' => (TokenKind::String, string(text).ok()?),
        b'%' => (TokenKind::Binary, 1 + bits(text).filter(|&bits| bits > 0)?),
        _ => (TokenKind::Symbol, symbol(text)?),
    })
}

/// How many bytes at the start of a text are of a sort.
pub fn run(text: &[u8], belongs: impl Fn(u8) -> bool) -> usize {
    text.iter().position(|&byte| !belongs(byte)).unwrap_or(text.len())
}

fn digits(text: &[u8]) -> usize {
    run(text, |byte| byte.is_ascii_digit())
}

fn number(text: &[u8]) -> (TokenKind, usize) {
    let whole = digits(text);
    if text.get(whole) != Some(&b'.') {
        return (TokenKind::Integer, whole);
    }
    let end = whole + 1 + digits(&text[whole + 1..]);
    let sign = match text[end..] {
        [b'e' | b'E', b'+' | b'-', b'0'..=b'9', ..] => 2,
        [b'e' | b'E', b'0'..=b'9', ..] => 1,
        _ => return (TokenKind::Real, end),
    };
    (TokenKind::Real, end + sign + digits(&text[end + sign..]))
}

/// The length of the string that a text begins with, or how many bytes there are before one that cannot stand in it.
pub fn string(text: &[u8]) -> Result<usize, usize> {
    let mut at = 1;
    loop {
        at += run(text.get(at..).unwrap_or_default(), |byte| byte != b'\'' && (32..=126).contains(&byte));
        match text.get(at..) {
            Some([b'\'', b'\'', ..]) => at += 2,
            Some([b'\'', ..]) => return Ok(at + 1),
            _ => return Err(at),
        }
    }
}

/// The bytes of the value of a string, of which the text is given: what stands between its quotes, each pair made one (T19).
pub fn string_value(text: &[u8]) -> impl Iterator<Item = u8> + '_ {
    let inner = text.get(1..text.len().saturating_sub(1)).unwrap_or_default();
    let mut second = false;
    inner.iter().copied().filter(move |&byte| {
        second = byte == b'\'' && !second;
        byte != b'\'' || second
    })
}

/// How many bits stand behind the `%` that a text begins with.
pub fn bits(text: &[u8]) -> Option<usize> {
    text.strip_prefix(b"%").map(|bits| run(bits, |byte| matches!(byte, b'0' | b'1')))
}

fn symbol(text: &[u8]) -> Option<usize> {
    Some(match text {
        [b'(', b'*', ..] => return None,
        [b':', b'<', b'>', b':', ..] => 4,
        [b':', b'=', b':', ..] => 3,
        [b':' | b'>', b'=', ..] | [b'<', b'=' | b'>' | b'*', ..] | [b'|', b'|', ..] | [b'*', b'*', ..] => 2,
        [first, ..] if b"()[]{}+-*/\\=<>.,:;?|".contains(first) => 1,
        _ => return None,
    })
}
