//! Faults of tokens and of the grammar: replies 2 to 5.

use super::reader::{self, Wanted};
use super::tokens::{self, Token};
use super::words::{is_operator, is_reserved, is_unread};
use super::Finding;
use crate::codes::TokenKind;
use crate::text::{grouped, position, quoted};
use crate::MAX_STRING_BYTES;

/// From so many of a class on, the class is named in their place.
const MANY: usize = 4;

pub fn no_token(src: &[u8], place: usize) -> Option<Finding> {
    let text = src.get(place..)?;
    let sentence = match text.first()? {
        b'\'' => unfinished_string(src, place, tokens::string(text).err()?),
        b'(' if text.get(1) == Some(&b'*') && tokens::remark(text).is_none() => {
            "The remark that begins here is never closed.".to_string()
        }
        b'%' => "`%` begins a binary, and no bit stands behind it.".to_string(),
        &byte => format!("The byte {byte}, {}, begins no token.", quoted(&[byte])),
    };
    Some(Finding::new(sentence))
}

fn unfinished_string(src: &[u8], place: usize, length: usize) -> String {
    match src.get(place + length) {
        None => "The string that begins here is never closed.".to_string(),
        Some(b'\n' | b'\r') => "The string that begins here is not closed on its line.".to_string(),
        Some(byte) => {
            let at = position(src, place + length);
            format!("The string that begins here has the byte {byte} in it (line {}, column {}).", at.line, at.column)
        }
    }
}

pub fn too_large(src: &[u8], place: usize) -> Option<Finding> {
    let text = src.get(place..)?;
    let sentence = match text.first()? {
        b'%' => format!("The binary has {} bits, and 63 are the most.", tokens::bits(text)?),
        b'\'' => {
            let bytes = tokens::string_value(&text[..tokens::string(text).ok()?]).count();
            format!("The string has {} bytes, and {MAX_STRING_BYTES} are the most.", grouped(bytes))
        }
        _ => {
            let digits = &text[..tokens::run(text, |byte| byte.is_ascii_digit())];
            format!("The integer {} is above 9223372036854775807, the largest.", quoted(digits))
        }
    };
    Some(Finding::new(sentence))
}

pub fn too_deep(src: &[u8], place: usize) -> Option<Finding> {
    let opening = src.get(place..=place)?;
    Some(Finding::new(format!(
        "{} would be open inside 64 parentheses and intervals, which are the most.",
        quoted(opening)
    )))
}

pub fn unexpected(src: &[u8], tokens: &[Token], place: usize) -> Option<Finding> {
    let stuck = reader::read(src, tokens).err()?;
    let found = tokens.get(stuck.token);
    if found.map_or(src.len(), |token| token.start) != place || stuck.wanted.is_empty() {
        return None;
    }
    Some(Finding::new(match found {
        None => format!("The file ends too early: {} must come next.", described(&stuck.wanted, true)),
        Some(token) => {
            let text = token.text(src);
            // One operator that cannot stand here is not told that an operator is expected.
            let wanted = described(&stuck.wanted, !is_operator(text));
            let what = word(token.kind, text, &stuck.wanted);
            format!("{}{what} cannot stand here, where {wanted} is expected.", quoted(text))
        }
    }))
}

/// What is to be said of a reserved word that is not expected.
fn word(kind: TokenKind, text: &[u8], wanted: &[Wanted]) -> &'static str {
    match kind {
        TokenKind::Word if is_unread(text) => ", of a part of EXPRESS that is not read,",
        TokenKind::Word if is_reserved(text) && wanted.contains(&Wanted::Name) => ", a reserved word,",
        _ => "",
    }
}

/// What could stand at a place, as a list of alternatives, operators together or one by one.
fn described(wanted: &[Wanted], operators: bool) -> String {
    let mut names: Vec<String> = Vec::new();
    for &one in wanted {
        let (class, many) = class(one);
        let members = wanted.iter().filter(|&&other| self::class(other) == (class, many)).count();
        let together = many && members >= MANY && (operators || !matches!(one, Wanted::Operator(_)));
        let name = if together { class.to_string() } else { alone(one) };
        if !names.contains(&name) {
            names.push(name);
        }
    }
    match names.split_last() {
        Some((last, [])) => last.clone(),
        Some((last, others)) => format!("{} or {last}", others.join(", ")),
        None => String::new(),
    }
}

/// The name of the class that one belongs to, and whether it may stand for its members.
fn class(wanted: Wanted) -> (&'static str, bool) {
    match wanted {
        Wanted::Name => ("a name", false),
        Wanted::Exact(word) => (word, false),
        Wanted::Operand(_) | Wanted::Literal(_) => ("another operand", true),
        Wanted::Operator(_) => ("an operator", true),
        Wanted::SimpleType(_) => ("a simple type", true),
        Wanted::End => ("the end of the file", false),
    }
}

fn alone(wanted: Wanted) -> String {
    match wanted {
        Wanted::Exact(word) | Wanted::Operand(word) | Wanted::Operator(word) | Wanted::SimpleType(word) => {
            format!("`{word}`")
        }
        Wanted::Literal(kind) => format!("a literal ({})", kind.name()),
        Wanted::Name | Wanted::End => class(wanted).0.to_string(),
    }
}
