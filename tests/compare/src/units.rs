//! A file in parts, whatever its bytes are; joined, the parts are the file.

#[derive(Clone, Copy, Debug, PartialEq, Eq)]
pub enum Unit {
    Statement,
    Line,
    Token,
    Byte,
}

/// The parts of a file.
pub fn parts(file: &[u8], unit: Unit) -> Vec<&[u8]> {
    match unit {
        Unit::Statement => file.split_inclusive(|&byte| byte == b';').collect(),
        Unit::Line => file.split_inclusive(|&byte| byte == b'\n').collect(),
        Unit::Token => file.chunk_by(|&left, &right| one_token(left, right)).collect(),
        Unit::Byte => file.chunks(1).collect(),
    }
}

/// Whether two bytes read like parts of one word, number, symbol or gap. A damaged file has no tokens, so this goes by bytes alone.
fn one_token(left: u8, right: u8) -> bool {
    let sort = |byte: u8| match byte {
        b'%' | b'_' => Some('w'),
        b':' | b'<' | b'>' | b'=' | b'*' | b'|' => Some(':'),
        _ if byte.is_ascii_alphanumeric() => Some('w'),
        _ if byte.is_ascii_whitespace() => Some(' '),
        _ => None,
    };
    sort(left).is_some() && sort(left) == sort(right)
}
