//! The two proved calls on columns and a room that the caller lends, for those who have tables of their own: the one place where Rust
//! meets them.
//!
//! The columns of a table may differ in length: it has as many rows as its shortest. The room holds the bytes of the string answers, one
//! after the other in the order of their rows. After a refusal every lent entry and every byte of the room is zero, and after acceptance
//! all that lies behind the last row and the last string.
#![allow(unsafe_code)]

/// Declares calls: all take the bytes, the columns of tokens and of nodes, a room, and a place for each number beside the reply.
macro_rules! declared {
    ($($call:ident($($answers:ty),*);)*) => {
        extern "C" {
            $(fn $call(
                src: *const u8,
                src_length: usize,
                token_kinds: *mut u8,
                token_kinds_length: usize,
                token_starts: *mut u32,
                token_starts_length: usize,
                token_lengths: *mut u32,
                token_lengths_length: usize,
                node_kinds: *mut u8,
                node_kinds_length: usize,
                node_tokens: *mut u32,
                node_tokens_length: usize,
                node_sizes: *mut u32,
                node_sizes_length: usize,
                node_bindings: *mut u32,
                node_bindings_length: usize,
                $(_: *mut $answers, _: usize,)*
                room: *mut u8,
                room_length: usize,
                number: &mut u32,
                tokens: &mut u32,
                nodes: &mut u32,
                constants: &mut u32,
            ) -> u8;)*
        }
    };
}

declared! {
    woffulent_check(u8, i64, u8);
    woffulent_check_records(Record);
}

/// Makes a call with the columns of the answers that it takes.
macro_rules! called {
    ($call:ident, $src:expr, $tokens:expr, $nodes:expr, [$($answers:expr),*], $room:expr) => {{
        let mut numbers = UNWRITTEN;
        // SAFETY: each column, and the room, is a slice of its own, lent with its length, and is written for the call alone; the call
        // reads and writes nothing else and ends for every input, as its contract says.
        numbers.reply = unsafe {
            $call(
                $src.as_ptr(),
                $src.len(),
                $tokens.kinds.as_mut_ptr(),
                $tokens.kinds.len(),
                $tokens.starts.as_mut_ptr(),
                $tokens.starts.len(),
                $tokens.lengths.as_mut_ptr(),
                $tokens.lengths.len(),
                $nodes.kinds.as_mut_ptr(),
                $nodes.kinds.len(),
                $nodes.tokens.as_mut_ptr(),
                $nodes.tokens.len(),
                $nodes.sizes.as_mut_ptr(),
                $nodes.sizes.len(),
                $nodes.bindings.as_mut_ptr(),
                $nodes.bindings.len(),
                $($answers.as_mut_ptr(), $answers.len(),)*
                $room.as_mut_ptr(),
                $room.len(),
                &mut numbers.number,
                &mut numbers.tokens,
                &mut numbers.nodes,
                &mut numbers.constants,
            )
        };
        numbers
    }};
}

/// The columns of the token table (R8).
#[derive(Debug)]
pub struct TokenColumns<'a> {
    /// By [`TokenKind`](crate::TokenKind).
    pub kinds: &'a mut [u8],
    /// The first byte of each.
    pub starts: &'a mut [u32],
    /// The bytes of each.
    pub lengths: &'a mut [u32],
}

/// The columns of the node table (R8), in post-order.
#[derive(Debug)]
pub struct NodeColumns<'a> {
    /// By [`NodeKind`](crate::NodeKind).
    pub kinds: &'a mut [u8],
    /// The token that names each.
    pub tokens: &'a mut [u32],
    /// The nodes of each with those below it.
    pub sizes: &'a mut [u32],
    /// One more than the node that each means, or 0.
    pub bindings: &'a mut [u32],
}

/// The columns of the answer table (R8), a row for each constant in the order of the text.
#[derive(Debug)]
pub struct AnswerColumns<'a> {
    /// By [`AnswerKind`](crate::AnswerKind), or an [`End`](crate::End).
    pub kinds: &'a mut [u8],
    /// The value of each; of a string where it starts in the room.
    pub numbers: &'a mut [i64],
    /// The bits of a binary, the bytes of a string.
    pub lengths: &'a mut [u8],
}

/// An answer as a record (R11): its fields in this order, each at the alignment that C gives it.
#[repr(C)]
#[derive(Clone, Copy, Debug, Default, PartialEq, Eq)]
pub struct Record {
    /// As in [`AnswerColumns`].
    pub kind: u8,
    /// As in [`AnswerColumns`].
    pub number: i64,
    /// As in [`AnswerColumns`].
    pub length: u8,
}

/// What a call answers (R1), as numbers.
#[derive(Clone, Copy, Debug, PartialEq, Eq)]
pub struct Numbers {
    /// By [`Reply`](crate::Reply).
    pub reply: u8,
    /// The number beside it.
    pub number: u32,
    /// How many tokens there are.
    pub tokens: u32,
    /// How many nodes.
    pub nodes: u32,
    /// How many constants.
    pub constants: u32,
}

/// What no call answers: a number that a call did not write would be seen.
const UNWRITTEN: Numbers =
    Numbers { reply: u8::MAX, number: u32::MAX, tokens: u32::MAX, nodes: u32::MAX, constants: u32::MAX };

/// Checks a file.
pub fn check(src: &[u8], tokens: TokenColumns, nodes: NodeColumns, answers: AnswerColumns, room: &mut [u8]) -> Numbers {
    called!(woffulent_check, src, tokens, nodes, [answers.kinds, answers.numbers, answers.lengths], room)
}

/// Checks a file, with the answers as records.
pub fn check_records(
    src: &[u8],
    tokens: TokenColumns,
    nodes: NodeColumns,
    records: &mut [Record],
    room: &mut [u8],
) -> Numbers {
    called!(woffulent_check_records, src, tokens, nodes, [records], room)
}
