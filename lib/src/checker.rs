//! Checking: the tables and the room that are lent, kept from one file to the next.

use crate::call::{self, AnswerColumns, NodeColumns, TokenColumns};
use crate::file::{File, Report};
use crate::refusal::Refusal;
use crate::{Reply, MAX_BYTES, MAX_STRING_BYTES};
use std::borrow::Cow;

/// The fewest tokens of a constant: name, colon, type, `:=`, an operand and a semicolon.
const TOKENS_OF_A_CONSTANT: usize = 6;

/// How many rows the tables of tokens, nodes and answers have, and how many bytes the room for the strings among the answers.
#[derive(Clone, Copy, Debug, PartialEq, Eq)]
pub struct Rows {
    /// Of the token table.
    pub tokens: usize,
    /// Of the node table.
    pub nodes: usize,
    /// Of the answer table.
    pub answers: usize,
    /// The bytes of the room.
    pub room: usize,
}

impl Rows {
    /// Enough for every file.
    pub const ANY: Rows = Rows::for_bytes(MAX_BYTES);

    /// What the proved program `listing` lends (R12).
    pub const PROGRAM: Rows = Rows { tokens: 8_192, nodes: 8_192, answers: 1_024, room: 1_024 * MAX_STRING_BYTES };

    /// Enough for every file of so many bytes: a token has a byte at least, and there are no more nodes than tokens (G36).
    pub const fn for_bytes(bytes: usize) -> Rows {
        let tokens = if bytes < MAX_BYTES { bytes } else { MAX_BYTES };
        let answers = tokens / TOKENS_OF_A_CONSTANT;
        Rows { tokens, nodes: tokens, answers, room: answers * MAX_STRING_BYTES }
    }

    /// Enough for one file: its room goes by the constants that it can have.
    fn for_file(src: &[u8]) -> Rows {
        let rows = Rows::for_bytes(src.len());
        Rows { room: rows.room.min(most_constants(src) * MAX_STRING_BYTES), ..rows }
    }

    fn least(self, other: Rows) -> Rows {
        Rows {
            tokens: self.tokens.min(other.tokens),
            nodes: self.nodes.min(other.nodes),
            answers: self.answers.min(other.answers),
            room: self.room.min(other.room),
        }
    }
}

/// No file has more constants with bytes in the room: each has a `:=`, and without a quote no string has a byte. What is too long is
/// not read.
fn most_constants(src: &[u8]) -> usize {
    if src.len() > MAX_BYTES || !src.contains(&b'\'') {
        return 0;
    }
    src.windows(2).filter(|&pair| pair == b":=").count()
}

/// The tables, by columns (R8), and the room.
#[derive(Clone, Debug, Default)]
pub(crate) struct Tables {
    pub token_kinds: Vec<u8>,
    pub token_starts: Vec<u32>,
    pub token_lengths: Vec<u32>,
    pub node_kinds: Vec<u8>,
    pub node_tokens: Vec<u32>,
    pub node_sizes: Vec<u32>,
    pub node_bindings: Vec<u32>,
    pub answer_kinds: Vec<u8>,
    pub answer_numbers: Vec<i64>,
    pub answer_lengths: Vec<u8>,
    pub room: Vec<u8>,
}

impl Tables {
    fn new(Rows { tokens, nodes, answers, room }: Rows) -> Self {
        Tables {
            token_kinds: vec![0; tokens],
            token_starts: vec![0; tokens],
            token_lengths: vec![0; tokens],
            node_kinds: vec![0; nodes],
            node_tokens: vec![0; nodes],
            node_sizes: vec![0; nodes],
            node_bindings: vec![0; nodes],
            answer_kinds: vec![0; answers],
            answer_numbers: vec![0; answers],
            answer_lengths: vec![0; answers],
            room: vec![0; room],
        }
    }

    /// Checks a file with as much of the tables and the room as it can need, where there is as much; what lies behind is never read.
    fn check(&mut self, src: &[u8], rows: Rows) -> Report {
        let Rows { tokens, nodes, answers, room } = rows.least(Rows::for_file(src));
        Report::new(call::check(
            src,
            TokenColumns {
                kinds: &mut self.token_kinds[..tokens],
                starts: &mut self.token_starts[..tokens],
                lengths: &mut self.token_lengths[..tokens],
            },
            NodeColumns {
                kinds: &mut self.node_kinds[..nodes],
                tokens: &mut self.node_tokens[..nodes],
                sizes: &mut self.node_sizes[..nodes],
                bindings: &mut self.node_bindings[..nodes],
            },
            AnswerColumns {
                kinds: &mut self.answer_kinds[..answers],
                numbers: &mut self.answer_numbers[..answers],
                lengths: &mut self.answer_lengths[..answers],
            },
            &mut self.room[..room],
        ))
    }
}

/// Checks files one after the other with tables and a room that are allocated once.
#[derive(Clone, Debug)]
pub struct Checker {
    rows: Rows,
    tables: Tables,
}

impl Checker {
    /// With tables that hold every file.
    pub fn new() -> Self {
        Checker::with_rows(Rows::ANY)
    }

    /// With so much: a file that needs more is refused by 6, 7, 8 or 20. More than [`Rows::ANY`] is of no use.
    pub fn with_rows(rows: Rows) -> Self {
        let rows = rows.least(Rows::ANY);
        Checker { rows, tables: Tables::new(rows) }
    }

    /// Checks a file. The result borrows the tables: it is gone before the next file is checked.
    pub fn check<'a, 's: 'a>(&'a mut self, src: &'s [u8]) -> Result<File<'a>, Refusal<'s>> {
        let report = self.tables.check(src, self.rows);
        judged(src, Cow::Borrowed(&self.tables), report)
    }
}

impl Default for Checker {
    fn default() -> Self {
        Checker::new()
    }
}

/// Checks one file, with tables of its own that are large enough.
pub fn check(src: &[u8]) -> Result<File<'_>, Refusal<'_>> {
    let rows = Rows::for_file(src);
    let mut tables = Tables::new(rows);
    let report = tables.check(src, rows);
    judged(src, Cow::Owned(tables), report)
}

fn judged<'a, 's: 'a>(src: &'s [u8], tables: Cow<'a, Tables>, report: Report) -> Result<File<'a>, Refusal<'s>> {
    match report.reply {
        Reply::Accepted => Ok(File::new(src, tables, report)),
        reply => Err(Refusal::new(src, reply, report.number)),
    }
}
