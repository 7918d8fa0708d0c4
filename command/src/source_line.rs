//! A line of a file with a mark under some bytes of it, fit for a terminal whatever the bytes are.

use std::ops::Range;

/// So many letters of a line are shown before the mark, and as many from it on.
const SHOWN: usize = 60;

/// The line that a span begins in, and a line with a mark below the span, as far as it lies in that line.
pub fn marked(src: &[u8], number: usize, span: Range<usize>) -> String {
    let feed = |byte: &u8| *byte == b'\n';
    let start = src[..span.start].iter().rposition(feed).map_or(0, |feed| feed + 1);
    let end = src[span.start..].iter().position(feed).map_or(src.len(), |length| span.start + length);
    let marked = span.start..span.end.clamp(span.start, end);
    let before = shown(&src[start..marked.start]);
    let from = shown(&src[marked.start..end]);
    let (cut_before, before) = last(&before);
    let (from, cut_behind) = first(&from);
    let width = shown(&src[marked]).len().clamp(1, SHOWN);
    let (gutter, indent) = (format!("{number:>6} | "), " ".repeat(cut_before.len() + before.len()));
    let line: String = before.iter().chain(from).collect();
    format!("{gutter}{cut_before}{line}{cut_behind}\n{:>6} | {indent}{}\n", "", "^".repeat(width))
}

/// The letters of some bytes, one for each place on the terminal: a tab is a space, and what is beyond ASCII, which may take no place or
/// two, or moves the cursor, a mark.
fn shown(bytes: &[u8]) -> Vec<char> {
    let text = String::from_utf8_lossy(bytes);
    let plain = |letter: char| match letter {
        '\t' => ' ',
        ' '..='~' => letter,
        _ => '\u{fffd}',
    };
    text.trim_end_matches('\r').chars().map(plain).collect()
}

fn last(letters: &[char]) -> (&'static str, &[char]) {
    match letters.len().checked_sub(SHOWN) {
        Some(cut) if cut > 0 => ("..", &letters[cut..]),
        _ => ("", letters),
    }
}

fn first(letters: &[char]) -> (&[char], &'static str) {
    match letters.get(..SHOWN) {
        Some(shown) if letters.len() > SHOWN => (shown, ".."),
        _ => (letters, ""),
    }
}
