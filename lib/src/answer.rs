//! The answers of constants.

use crate::codes::{AnswerKind, End};
use std::fmt::{self, Write};

/// What a string literal begins and ends with.
const QUOTE: char = '\'';

/// What a constant comes to (K12).
#[derive(Clone, Copy, Debug, PartialEq, Eq, Hash)]
pub enum Answer<'a> {
    /// `?`
    Indeterminate,
    /// An integer.
    Integer(i64),
    /// One of the three logical values.
    Logical(Logical),
    /// A list of bits.
    Binary(Binary),
    /// An item of an enumeration.
    Item {
        /// Its name, as its declaration spells it.
        name: &'a str,
        /// The node that declares it.
        node: usize,
    },
    /// The bytes of a string, from 32 to 126, each pair of quotes in a literal made one.
    String(&'a [u8]),
    /// No value, and why.
    End(End),
}

/// A logical value, in the order of K22.
#[derive(Clone, Copy, Debug, PartialEq, Eq, Hash, PartialOrd, Ord)]
#[repr(u8)]
pub enum Logical {
    /// FALSE
    False = 0,
    /// UNKNOWN
    Unknown = 1,
    /// TRUE
    True = 2,
}

impl Logical {
    /// The one of a row's number, which is one of the three.
    fn from_number(number: i64) -> Self {
        let others = [Logical::False, Logical::Unknown];
        others.into_iter().find(|&other| other as i64 == number).unwrap_or(Logical::True)
    }
}

/// From 1 to 63 bits.
#[derive(Clone, Copy, Debug, PartialEq, Eq, Hash)]
pub struct Binary {
    /// The number that the bits stand for, the leftmost bit weighing most.
    pub number: u64,
    /// How many bits.
    pub length: u8,
}

impl<'a> Answer<'a> {
    /// The answer of a row (K35), with the room that its strings lie in; `item` gives the name of the item that a node declares.
    pub(crate) fn from_row(
        (kind, number, length): (u8, i64, u8),
        room: &'a [u8],
        item: impl Fn(usize) -> &'a str,
    ) -> Self {
        let unsigned = number.unsigned_abs();
        let index = usize::try_from(unsigned).unwrap_or(usize::MAX);
        match AnswerKind::from_number(kind) {
            Some(AnswerKind::Indeterminate) => Answer::Indeterminate,
            Some(AnswerKind::Integer) => Answer::Integer(number),
            Some(AnswerKind::Logical) => Answer::Logical(Logical::from_number(number)),
            Some(AnswerKind::Binary) => Answer::Binary(Binary { number: unsigned, length }),
            Some(AnswerKind::Item) => Answer::Item { name: item(index), node: index },
            Some(AnswerKind::String) => {
                let bytes = room.get(index..).and_then(|rest| rest.get(..length.into()));
                Answer::String(bytes.unwrap_or_default())
            }
            None => End::from_number(kind).map_or(Answer::Indeterminate, Answer::End),
        }
    }

    /// The sort of answer, in a word.
    pub fn sort(&self) -> &'static str {
        match self {
            Answer::Indeterminate => "indeterminate",
            Answer::Integer(_) => "integer",
            Answer::Logical(_) => "logical",
            Answer::Binary(_) => "binary",
            Answer::Item { .. } => "item",
            Answer::String(_) => "string",
            Answer::End(_) => "end",
        }
    }
}

/// As the listing prints it (R15).
impl fmt::Display for Answer<'_> {
    fn fmt(&self, f: &mut fmt::Formatter) -> fmt::Result {
        match self {
            Answer::Indeterminate => f.write_str("?"),
            Answer::Integer(number) => write!(f, "{number}"),
            Answer::Logical(logical) => write!(f, "{logical}"),
            Answer::Binary(binary) => write!(f, "{binary}"),
            Answer::Item { name, .. } => name.chars().try_for_each(|letter| f.write_char(letter.to_ascii_lowercase())),
            Answer::String(bytes) => literal(bytes, f),
            Answer::End(end) => write!(f, "end {}", end.number()),
        }
    }
}

/// A string as a literal: each quote in it twice.
fn literal(bytes: &[u8], f: &mut fmt::Formatter) -> fmt::Result {
    f.write_char(QUOTE)?;
    for &byte in bytes {
        let letter = char::from(byte);
        f.write_char(letter)?;
        if letter == QUOTE {
            f.write_char(letter)?;
        }
    }
    f.write_char(QUOTE)
}

impl fmt::Display for Logical {
    fn fmt(&self, f: &mut fmt::Formatter) -> fmt::Result {
        f.write_str(match self {
            Logical::False => "FALSE",
            Logical::Unknown => "UNKNOWN",
            Logical::True => "TRUE",
        })
    }
}

impl fmt::Display for Binary {
    fn fmt(&self, f: &mut fmt::Formatter) -> fmt::Result {
        write!(f, "%{:0length$b}", self.number, length = self.length.into())
    }
}
