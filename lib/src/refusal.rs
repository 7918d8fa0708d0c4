//! A refused file: the number and place of the proved reply, and what can be said of them.

use crate::codes::Reply;
use crate::explain::{self, Explanation};
use crate::text;
use std::borrow::Cow;
use std::error::Error;
use std::fmt;

/// A line and a column, both from 1; a column counts bytes.
#[derive(Clone, Copy, Debug, PartialEq, Eq, PartialOrd, Ord)]
pub struct Position {
    /// The line, as line feeds end them.
    pub line: usize,
    /// The column.
    pub column: usize,
}

impl Position {
    /// That of a byte of a file.
    pub fn of(src: &[u8], place: usize) -> Self {
        text::position(src, place)
    }
}

/// A refused file.
#[derive(Clone, PartialEq, Eq)]
pub struct Refusal<'a> {
    src: Cow<'a, [u8]>,
    reply: Reply,
    beside: u32,
}

impl<'a> Refusal<'a> {
    pub(crate) fn new(src: &'a [u8], reply: Reply, beside: u32) -> Self {
        Refusal { src: Cow::Borrowed(src), reply, beside }
    }

    /// The reply's number, from 1 to 15, or 20.
    pub fn number(&self) -> u8 {
        self.reply.number()
    }

    /// The reply.
    pub fn reply(&self) -> Reply {
        self.reply
    }

    /// The number beside the reply, whatever it counts (R2).
    pub fn beside(&self) -> u32 {
        self.beside
    }

    /// How many rows the table needs that is too short (replies 6, 7 and 8).
    pub fn needed(&self) -> Option<usize> {
        let short = matches!(self.reply, Reply::TokensShort | Reply::NodesShort | Reply::AnswersShort);
        short.then_some(self.beside as usize)
    }

    /// How many bytes of room were lent that are too few for the strings (reply 20).
    pub fn lent(&self) -> Option<usize> {
        (self.reply == Reply::RoomShort).then_some(self.beside as usize)
    }

    /// Whether a file is refused for what was lent: a table or the room is too short (replies 6, 7, 8 and 20).
    pub fn is_short(&self) -> bool {
        self.needed().is_some() || self.lent().is_some()
    }

    /// The byte at fault; none where the file as a whole is (replies 1, 6, 7, 8 and 20).
    pub fn place(&self) -> Option<usize> {
        (self.reply != Reply::TooLong && !self.is_short()).then_some(self.beside as usize)
    }

    /// The line and column of the place.
    pub fn position(&self) -> Option<Position> {
        self.place().map(|place| text::position(&self.src, place))
    }

    /// The bytes that were checked.
    pub fn source(&self) -> &[u8] {
        &self.src
    }

    /// What is wrong, in a sentence, with the bytes that it is about. Number and place are proved; this is not.
    pub fn explain(&self) -> Explanation {
        explain::explain(self)
    }

    /// The same with a copy of the bytes, to be kept longer than they are.
    pub fn into_owned(self) -> Refusal<'static> {
        Refusal { src: Cow::Owned(self.src.into_owned()), reply: self.reply, beside: self.beside }
    }
}

/// The sentence of [`Refusal::explain`], with line and column before it where there is a place.
impl fmt::Display for Refusal<'_> {
    fn fmt(&self, f: &mut fmt::Formatter) -> fmt::Result {
        if let Some(Position { line, column }) = self.position() {
            write!(f, "line {line}, column {column}: ")?;
        }
        f.write_str(&self.explain().sentence)
    }
}

/// Without the bytes of the file.
impl fmt::Debug for Refusal<'_> {
    fn fmt(&self, f: &mut fmt::Formatter) -> fmt::Result {
        f.debug_struct("Refusal").field("reply", &self.reply).field("beside", &self.beside).finish_non_exhaustive()
    }
}

impl Error for Refusal<'_> {}
