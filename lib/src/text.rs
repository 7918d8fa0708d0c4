//! Bytes of a file as text: lines and columns, and words for messages.

use crate::refusal::Position;

/// The line and column of a byte, both from 1; a column counts bytes, and a line ends with a line feed.
pub fn position(src: &[u8], place: usize) -> Position {
    let before = &src[..place.min(src.len())];
    let start = before.iter().rposition(|&byte| byte == b'\n').map_or(0, |feed| feed + 1);
    let feeds = before.iter().filter(|&&byte| byte == b'\n').count();
    Position { line: feeds + 1, column: before.len() - start + 1 }
}

/// Bytes between quotes, as one word of a sentence: what is not printable is escaped, and what is long is cut.
pub fn quoted(bytes: &[u8]) -> String {
    const MOST: usize = 60;
    let cut = if bytes.len() > MOST { ".." } else { "" };
    format!(
        "`{}{cut}`",
        bytes[..bytes.len().min(MOST)].escape_ascii().to_string().replace("\\'", "'").replace("\\\"", "\"")
    )
}

/// A number with a comma after each three digits.
pub fn grouped(number: usize) -> String {
    let digits = number.to_string();
    let mut text = String::new();
    for (i, digit) in digits.chars().enumerate() {
        if i > 0 && (digits.len() - i).is_multiple_of(3) {
            text.push(',');
        }
        text.push(digit);
    }
    text
}

/// A noun with its article.
pub fn one(noun: &str) -> String {
    let article = if noun.starts_with(['a', 'e', 'i', 'o', 'u']) { "an" } else { "a" };
    format!("{article} {noun}")
}
