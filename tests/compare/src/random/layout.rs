//! From tokens to bytes: letter case, spaces, remarks and line comments, so that the same tokens are read again.

use super::rng::Rng;

const SPACES: [&str; 8] = [" ", " ", "\n", "\t", "\r\n", "  ", "\x0b", "\x0c"];
/// No piece ends in `(` or `*`, which with the byte after it could open or close a remark.
const PIECES: [&str; 13] = [" ", "x", "--", "'", "( ", ") ", "* ", "\u{e9}", "\0", "\n", "\r;", "END_SCHEMA;", "%?\""];

#[derive(Clone, Copy)]
enum Case {
    Kept,
    Upper,
    Mixed,
}

#[derive(Clone, Copy, PartialEq)]
enum Gap {
    Plain,
    Dense,
    Wild,
}

/// The tokens as a file with a layout of its own.
pub fn lay_out(rng: &mut Rng, tokens: &[String]) -> Vec<u8> {
    let case = *rng.pick(&[Case::Kept, Case::Upper, Case::Mixed]);
    let gap = *rng.pick(&[Gap::Plain, Gap::Plain, Gap::Dense, Gap::Wild]);
    write(rng, tokens, case, gap)
}

/// The tokens with as few bytes between them as can be.
pub fn dense(rng: &mut Rng, tokens: &[String]) -> Vec<u8> {
    write(rng, tokens, Case::Kept, Gap::Dense)
}

fn write(rng: &mut Rng, tokens: &[String], case: Case, gap: Gap) -> Vec<u8> {
    let mut out = Vec::new();
    let mut before = "";
    for token in tokens {
        between(rng, &mut out, gap, before, token);
        spell(rng, &mut out, case, token);
        before = token;
    }
    if gap == Gap::Wild {
        trail(rng, &mut out);
    }
    out
}

fn between(rng: &mut Rng, out: &mut Vec<u8>, gap: Gap, before: &str, token: &str) {
    match gap {
        Gap::Plain if before == ";" => out.push(b'\n'),
        Gap::Plain if !before.is_empty() => out.push(b' '),
        Gap::Wild if !rng.one_in(3) => wild(rng, out),
        _ if joins(before, token) => out.push(b' '),
        _ => {}
    }
}

/// Whether the two tokens, written without a gap, could be read as others.
fn joins(left: &str, right: &str) -> bool {
    let (Some(&l), Some(&r)) = (left.as_bytes().last(), right.as_bytes().first()) else {
        return false;
    };
    let word = |b: u8| b.is_ascii_alphanumeric() || b == b'_';
    let number = left.as_bytes()[0].is_ascii_digit();
    word(l) && word(r)
        || number && (r == b'.' || l == b'.' && word(r))
        || l == b'\'' && r == b'\''
        || matches!((l, r), (b'<', b'=' | b'>' | b'*') | (b'>', b'=' | b':') | (b':', b'=' | b'<') | (b'=', b':'))
        || matches!((l, r), (b'|', b'|') | (b'*', b'*') | (b'(', b'*') | (b'-', b'-'))
}

fn spell(rng: &mut Rng, out: &mut Vec<u8>, case: Case, token: &str) {
    let first = token.as_bytes().first().copied().unwrap_or(b' ');
    for byte in token.bytes() {
        out.push(match case {
            _ if first == b'\'' => byte,
            Case::Kept => byte,
            Case::Upper => byte.to_ascii_uppercase(),
            Case::Mixed if rng.one_in(2) => byte.to_ascii_uppercase(),
            Case::Mixed => byte.to_ascii_lowercase(),
        });
    }
}

/// At least one space, remark or line comment.
fn wild(rng: &mut Rng, out: &mut Vec<u8>) {
    match rng.below(16) {
        0 => remark(rng, out, 0),
        1 => {
            // The space keeps the comment off a `-` before it.
            out.extend(b" --");
            pieces(rng, out, true);
            out.push(b'\n');
        }
        n => (0..n.saturating_sub(12).max(1)).for_each(|_| out.extend(rng.pick(&SPACES).bytes())),
    }
}

/// A remark, perhaps with others in it; `(*)` opens one too, and `**)` closes it.
fn remark(rng: &mut Rng, out: &mut Vec<u8>, depth: usize) {
    out.extend(*rng.pick(&[b"(*" as &[u8], b"(*", b"(*)"]));
    pieces(rng, out, false);
    if depth < 5 && rng.one_in(3) {
        remark(rng, out, depth + 1);
        pieces(rng, out, false);
    }
    out.extend(*rng.pick(&[b"*)" as &[u8], b"*)", b"**)"]));
}

fn pieces(rng: &mut Rng, out: &mut Vec<u8>, one_line: bool) {
    for _ in 0..rng.below(4) {
        let piece = rng.pick(&PIECES);
        if !(one_line && *piece == "\n") {
            out.extend(piece.bytes());
        }
    }
}

/// The end of a file: perhaps a line comment that no line feed ends.
fn trail(rng: &mut Rng, out: &mut Vec<u8>) {
    wild(rng, out);
    if rng.one_in(4) {
        out.extend(b" -- (* 'the end");
    }
}
