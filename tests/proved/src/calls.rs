//! The only unsafe code of the project: calls into the archive of the proved functions.
//!
//! A slice passes as a pointer and a length, and each function is proved to end, to read and write within the slices that it
//! is lent and to keep nothing. Rust's own rules on references give the rest of what it takes: the pointers are valid, and
//! what is written is lent to no one else.
#![allow(unsafe_code)]

use reference::{AnswerRow, Refusal, MAX_BYTES};
use std::cmp::Ordering;

#[link(name = "test_exports", kind = "static")]
extern "C" {
    fn woffulent_scan(
        src: *const u8,
        src_length: usize,
        limit: u32,
        kinds: *mut u8,
        kinds_length: usize,
        starts: *mut u32,
        starts_length: usize,
        lengths: *mut u32,
        lengths_length: usize,
        number: &mut usize,
    ) -> u8;
    fn woffulent_terminals(
        src: *const u8,
        src_length: usize,
        kinds: *const u8,
        kinds_length: usize,
        starts: *const u32,
        starts_length: usize,
        lengths: *const u32,
        lengths_length: usize,
        out: *mut u8,
        out_length: usize,
    );
    fn woffulent_parse(
        codes: *const u8,
        codes_length: usize,
        scratch: *mut u64,
        scratch_length: usize,
        kinds: *mut u8,
        kinds_length: usize,
        tokens: *mut u32,
        tokens_length: usize,
        sizes: *mut u32,
        sizes_length: usize,
        roles: *mut u32,
        roles_length: usize,
        number: &mut usize,
    ) -> u8;
    fn woffulent_resolve(
        src: *const u8,
        src_length: usize,
        starts: *const u32,
        starts_length: usize,
        lengths: *const u32,
        lengths_length: usize,
        terminals: *const u8,
        terminals_length: usize,
        kinds: *const u8,
        kinds_length: usize,
        tokens: *const u32,
        tokens_length: usize,
        sizes: *const u32,
        sizes_length: usize,
        bindings: *mut u32,
        bindings_length: usize,
        roles: *mut u8,
        roles_length: usize,
        symbols: *mut u32,
        symbols_length: usize,
        keys: *mut u64,
        keys_length: usize,
        nodes: *mut u32,
        nodes_length: usize,
        heads: *mut u32,
        heads_length: usize,
        next: *mut u32,
        next_length: usize,
        first: *mut u32,
        first_length: usize,
        to: *mut u32,
        to_length: usize,
        types: *mut u32,
        types_length: usize,
        constants: *mut u32,
        constants_length: usize,
        scratch: *mut u32,
        scratch_length: usize,
        place: &mut u32,
    ) -> u8;
    fn woffulent_declared_types(
        terminals: *const u8,
        terminals_length: usize,
        kinds: *const u8,
        kinds_length: usize,
        tokens: *const u32,
        tokens_length: usize,
        sizes: *const u32,
        sizes_length: usize,
        bindings: *const u32,
        bindings_length: usize,
        order: *const u32,
        order_length: usize,
        column: *mut u32,
        column_length: usize,
    );
    fn woffulent_type_constants(
        terminals: *const u8,
        terminals_length: usize,
        kinds: *const u8,
        kinds_length: usize,
        tokens: *const u32,
        tokens_length: usize,
        sizes: *const u32,
        sizes_length: usize,
        bindings: *const u32,
        bindings_length: usize,
        declared: *const u32,
        declared_length: usize,
        scratch: *mut u32,
        scratch_length: usize,
        node: &mut usize,
    ) -> u8;
    fn woffulent_evaluate_constants(
        src: *const u8,
        src_length: usize,
        starts: *const u32,
        starts_length: usize,
        lengths: *const u32,
        lengths_length: usize,
        terminals: *const u8,
        terminals_length: usize,
        kinds: *const u8,
        kinds_length: usize,
        tokens: *const u32,
        tokens_length: usize,
        sizes: *const u32,
        sizes_length: usize,
        bindings: *const u32,
        bindings_length: usize,
        declared: *const u32,
        declared_length: usize,
        order: *const u32,
        order_length: usize,
        row_of: *mut u32,
        row_of_length: usize,
        answer_kinds: *mut u8,
        answer_kinds_length: usize,
        answer_numbers: *mut i64,
        answer_numbers_length: usize,
        answer_lengths: *mut u8,
        answer_lengths_length: usize,
        value_kinds: *mut u8,
        value_kinds_length: usize,
        value_numbers: *mut i64,
        value_numbers_length: usize,
        value_lengths: *mut u8,
        value_lengths_length: usize,
        room: *mut u8,
        room_length: usize,
    ) -> usize;
    fn woffulent_integer(s: *const u8, s_length: usize, start: usize, length: usize) -> u64;
    fn woffulent_binary(s: *const u8, s_length: usize, start: usize, length: usize) -> u64;
    fn woffulent_string_length(s: *const u8, s_length: usize, start: usize, length: usize) -> usize;
    fn woffulent_string_bytes(
        s: *const u8,
        s_length: usize,
        start: usize,
        length: usize,
        out: *mut u8,
        out_length: usize,
        at: usize,
    ) -> usize;
    fn woffulent_add(a: i64, b: i64, number: &mut i64, length: &mut u8) -> u8;
    fn woffulent_subtract(a: i64, b: i64, number: &mut i64, length: &mut u8) -> u8;
    fn woffulent_multiply(a: i64, b: i64, number: &mut i64, length: &mut u8) -> u8;
    fn woffulent_div(a: i64, b: i64, number: &mut i64, length: &mut u8) -> u8;
    fn woffulent_modulo(a: i64, b: i64, number: &mut i64, length: &mut u8) -> u8;
    fn woffulent_power(a: i64, b: i64, number: &mut i64, length: &mut u8) -> u8;
    fn woffulent_negate(a: i64, number: &mut i64, length: &mut u8) -> u8;
    fn woffulent_compare(a: i64, b: i64) -> u8;
    fn woffulent_join(a: u64, m: u8, b: u64, n: u8, number: &mut i64, length: &mut u8) -> u8;
    fn woffulent_compare_binaries(a: u64, m: u8, b: u64, n: u8) -> u8;
    fn woffulent_compare_strings(a: *const u8, a_length: usize, b: *const u8, b_length: usize) -> u8;
    fn woffulent_combined(
        class: u8,
        place: u8,
        kind_a: u8,
        number_a: i64,
        length_a: u8,
        kind_b: u8,
        number_b: i64,
        length_b: u8,
        number: &mut i64,
        length: &mut u8,
    ) -> u8;
    fn woffulent_applied(place: u8, kind: u8, z: i64, bits: u8, number: &mut i64, length: &mut u8) -> u8;
    fn woffulent_between(
        first: u8,
        second: u8,
        kind_a: u8,
        number_a: i64,
        length_a: u8,
        kind_b: u8,
        number_b: i64,
        length_b: u8,
        kind_c: u8,
        number_c: i64,
        length_c: u8,
        number: &mut i64,
        length: &mut u8,
    ) -> u8;
    fn woffulent_held(boolean: bool, kind: u8, z: i64, bits: u8, number: &mut i64, length: &mut u8) -> u8;
    fn woffulent_and(a: u8, b: u8) -> u8;
    fn woffulent_or(a: u8, b: u8) -> u8;
    fn woffulent_xor(a: u8, b: u8) -> u8;
    fn woffulent_not(a: u8) -> u8;
    fn woffulent_relate(a: u8, by: u8, b: u8) -> u8;
    fn woffulent_intern(
        bytes: *const u8,
        bytes_length: usize,
        starts: *const u32,
        starts_length: usize,
        lengths: *const u32,
        lengths_length: usize,
        terminals: *const u8,
        terminals_length: usize,
        symbols: *mut u32,
        symbols_length: usize,
        heads: *mut u32,
        heads_length: usize,
        next: *mut u32,
        next_length: usize,
    ) -> bool;
    fn woffulent_symbol_of(
        bytes: *const u8,
        bytes_length: usize,
        starts: *const u32,
        starts_length: usize,
        lengths: *const u32,
        lengths_length: usize,
        heads: *const u32,
        heads_length: usize,
        next: *const u32,
        next_length: usize,
        word: *const u8,
        word_length: usize,
    ) -> usize;
    fn woffulent_build(
        keys: *const u64,
        keys_length: usize,
        heads: *mut u32,
        heads_length: usize,
        next: *mut u32,
        next_length: usize,
    ) -> bool;
    fn woffulent_find(
        keys: *const u64,
        keys_length: usize,
        heads: *const u32,
        heads_length: usize,
        next: *const u32,
        next_length: usize,
        key: u64,
    ) -> usize;
    fn woffulent_next_of(
        keys: *const u64,
        keys_length: usize,
        next: *const u32,
        next_length: usize,
        at: usize,
    ) -> usize;
    fn woffulent_reachable(
        first: *const u32,
        first_length: usize,
        to: *const u32,
        to_length: usize,
        from: usize,
        mark: *mut u32,
        mark_length: usize,
        queue: *mut u32,
        queue_length: usize,
    ) -> bool;
    fn woffulent_order(
        first: *const u32,
        first_length: usize,
        to: *const u32,
        to_length: usize,
        column: *mut u32,
        column_length: usize,
        scratch: *mut u32,
        scratch_length: usize,
    ) -> usize;
    fn woffulent_components(
        first: *const u32,
        first_length: usize,
        to: *const u32,
        to_length: usize,
        column: *mut u32,
        column_length: usize,
        scratch: *mut u32,
        scratch_length: usize,
    ) -> bool;
}

/// A reply and the number beside it, as the reference gives them.
fn outcome(reply: u8, number: usize) -> Result<usize, Refusal> {
    match reply {
        0 => Ok(number),
        _ => Err(Refusal { reply: reply.into(), number: number as u64 }),
    }
}

/// The tokens of a file, a row for each as far as the columns go; their number, or the refusal.
pub fn scan(src: &[u8], kinds: &mut [u8], starts: &mut [u32], lengths: &mut [u32]) -> Result<usize, Refusal> {
    scan_to(src, MAX_BYTES as u32, kinds, starts, lengths)
}

/// The same of a text with any limit on its bytes.
pub fn scan_to(
    src: &[u8],
    limit: u32,
    kinds: &mut [u8],
    starts: &mut [u32],
    lengths: &mut [u32],
) -> Result<usize, Refusal> {
    let mut number = 0;
    // SAFETY: see the head of this file.
    let reply = unsafe {
        woffulent_scan(
            src.as_ptr(),
            src.len(),
            limit,
            kinds.as_mut_ptr(),
            kinds.len(),
            starts.as_mut_ptr(),
            starts.len(),
            lengths.as_mut_ptr(),
            lengths.len(),
            &mut number,
        )
    };
    outcome(reply, number)
}

/// The terminal of each token, as far as the column goes.
pub fn terminals(src: &[u8], kinds: &[u8], starts: &[u32], lengths: &[u32], out: &mut [u8]) {
    // SAFETY: see the head of this file.
    unsafe {
        woffulent_terminals(
            src.as_ptr(),
            src.len(),
            kinds.as_ptr(),
            kinds.len(),
            starts.as_ptr(),
            starts.len(),
            lengths.as_ptr(),
            lengths.len(),
            out.as_mut_ptr(),
            out.len(),
        )
    }
}

/// The node rows of the terminals of a file, as far as the columns go; their number, or the refusal (by 4 and 5 at a token, by 255 with the
/// words of scratch that are needed).
pub fn parse(
    codes: &[u8],
    scratch: &mut [u64],
    kinds: &mut [u8],
    tokens: &mut [u32],
    sizes: &mut [u32],
    roles: &mut [u32],
) -> Result<usize, Refusal> {
    let mut number = 0;
    // SAFETY: see the head of this file.
    let reply = unsafe {
        woffulent_parse(
            codes.as_ptr(),
            codes.len(),
            scratch.as_mut_ptr(),
            scratch.len(),
            kinds.as_mut_ptr(),
            kinds.len(),
            tokens.as_mut_ptr(),
            tokens.len(),
            sizes.as_mut_ptr(),
            sizes.len(),
            roles.as_mut_ptr(),
            roles.len(),
            &mut number,
        )
    };
    outcome(reply, number)
}

/// The columns of a file's nodes, with the terminals of its tokens and what its names are bound to.
#[derive(Clone, Copy, Debug)]
pub struct Nodes<'a> {
    pub terminals: &'a [u8],
    pub kinds: &'a [u8],
    pub tokens: &'a [u32],
    pub sizes: &'a [u32],
    pub bindings: &'a [u32],
}

/// What the names of a file are bound in: its roles as bytes, its symbols and dictionary, a graph, two orders, and scratch.
#[derive(Clone, Debug, PartialEq, Eq)]
pub struct NameColumns {
    pub roles: Vec<u8>,
    pub symbols: Vec<u32>,
    pub keys: Vec<u64>,
    pub nodes: Vec<u32>,
    pub heads: Vec<u32>,
    pub next: Vec<u32>,
    pub first: Vec<u32>,
    pub to: Vec<u32>,
    pub types: Vec<u32>,
    pub constants: Vec<u32>,
    pub scratch: Vec<u32>,
}

/// Binds the names of a file; its roles stand in the column of bindings. None where a column is too short.
pub fn resolve(text: Text, nodes: Nodes, bindings: &mut [u32], lent: &mut NameColumns) -> Option<Result<(), Refusal>> {
    let mut place = u32::MAX;
    // SAFETY: see the head of this file.
    let reply = unsafe {
        woffulent_resolve(
            text.bytes.as_ptr(),
            text.bytes.len(),
            text.starts.as_ptr(),
            text.starts.len(),
            text.lengths.as_ptr(),
            text.lengths.len(),
            nodes.terminals.as_ptr(),
            nodes.terminals.len(),
            nodes.kinds.as_ptr(),
            nodes.kinds.len(),
            nodes.tokens.as_ptr(),
            nodes.tokens.len(),
            nodes.sizes.as_ptr(),
            nodes.sizes.len(),
            bindings.as_mut_ptr(),
            bindings.len(),
            lent.roles.as_mut_ptr(),
            lent.roles.len(),
            lent.symbols.as_mut_ptr(),
            lent.symbols.len(),
            lent.keys.as_mut_ptr(),
            lent.keys.len(),
            lent.nodes.as_mut_ptr(),
            lent.nodes.len(),
            lent.heads.as_mut_ptr(),
            lent.heads.len(),
            lent.next.as_mut_ptr(),
            lent.next.len(),
            lent.first.as_mut_ptr(),
            lent.first.len(),
            lent.to.as_mut_ptr(),
            lent.to.len(),
            lent.types.as_mut_ptr(),
            lent.types.len(),
            lent.constants.as_mut_ptr(),
            lent.constants.len(),
            lent.scratch.as_mut_ptr(),
            lent.scratch.len(),
            &mut place,
        )
    };
    match reply {
        u8::MAX => None,
        0 => Some(Ok(())),
        _ => Some(Err(Refusal { reply: reply.into(), number: place.into() })),
    }
}

/// Stores what items, types and constants are declared with, by number. `order` has the nodes of the declarations, each type
/// after those that it renames.
pub fn declared_types(nodes: Nodes, order: &[u32], column: &mut [u32]) {
    // SAFETY: see the head of this file.
    unsafe {
        woffulent_declared_types(
            nodes.terminals.as_ptr(),
            nodes.terminals.len(),
            nodes.kinds.as_ptr(),
            nodes.kinds.len(),
            nodes.tokens.as_ptr(),
            nodes.tokens.len(),
            nodes.sizes.as_ptr(),
            nodes.sizes.len(),
            nodes.bindings.as_ptr(),
            nodes.bindings.len(),
            order.as_ptr(),
            order.len(),
            column.as_mut_ptr(),
            column.len(),
        )
    }
}

/// Types all constants against what is declared; the number beside a refusal is the node of the first fault.
pub fn type_constants(nodes: Nodes, declared: &[u32], scratch: &mut [u32]) -> Result<(), Refusal> {
    let mut node = usize::MAX;
    // SAFETY: see the head of this file.
    let reply = unsafe {
        woffulent_type_constants(
            nodes.terminals.as_ptr(),
            nodes.terminals.len(),
            nodes.kinds.as_ptr(),
            nodes.kinds.len(),
            nodes.tokens.as_ptr(),
            nodes.tokens.len(),
            nodes.sizes.as_ptr(),
            nodes.sizes.len(),
            nodes.bindings.as_ptr(),
            nodes.bindings.len(),
            declared.as_ptr(),
            declared.len(),
            scratch.as_mut_ptr(),
            scratch.len(),
            &mut node,
        )
    };
    outcome(reply, node).map(|_| ())
}

/// The bytes of a file and where its tokens stand in them.
#[derive(Clone, Copy, Debug)]
pub struct Text<'a> {
    pub bytes: &'a [u8],
    pub starts: &'a [u32],
    pub lengths: &'a [u32],
}

/// Three columns that hold an answer in each row.
#[derive(Debug)]
pub struct Rows<'a> {
    pub kinds: &'a mut [u8],
    pub numbers: &'a mut [i64],
    pub lengths: &'a mut [u8],
}

/// What the evaluation of constants is lent to write to.
#[derive(Debug)]
pub struct AnswerColumns<'a> {
    /// For each node the number of constants before it.
    pub row_of: &'a mut [u32],
    /// The answers of constants in the order of the text.
    pub answers: Rows<'a>,
    /// Scratch by node.
    pub values: Rows<'a>,
    /// The bytes of strings.
    pub room: &'a mut [u8],
}

/// How many bytes the strings of all constants take. Where the room has so many, the answers are stored, and in the room the strings with
/// zeros behind. `order` has the nodes of the declarations, each constant after those that it names.
pub fn evaluate_constants(text: Text, nodes: Nodes, declared: &[u32], order: &[u32], lent: AnswerColumns) -> usize {
    let AnswerColumns { row_of, answers, values, room } = lent;
    // SAFETY: see the head of this file.
    unsafe {
        woffulent_evaluate_constants(
            text.bytes.as_ptr(),
            text.bytes.len(),
            text.starts.as_ptr(),
            text.starts.len(),
            text.lengths.as_ptr(),
            text.lengths.len(),
            nodes.terminals.as_ptr(),
            nodes.terminals.len(),
            nodes.kinds.as_ptr(),
            nodes.kinds.len(),
            nodes.tokens.as_ptr(),
            nodes.tokens.len(),
            nodes.sizes.as_ptr(),
            nodes.sizes.len(),
            nodes.bindings.as_ptr(),
            nodes.bindings.len(),
            declared.as_ptr(),
            declared.len(),
            order.as_ptr(),
            order.len(),
            row_of.as_mut_ptr(),
            row_of.len(),
            answers.kinds.as_mut_ptr(),
            answers.kinds.len(),
            answers.numbers.as_mut_ptr(),
            answers.numbers.len(),
            answers.lengths.as_mut_ptr(),
            answers.lengths.len(),
            values.kinds.as_mut_ptr(),
            values.kinds.len(),
            values.numbers.as_mut_ptr(),
            values.numbers.len(),
            values.lengths.as_mut_ptr(),
            values.lengths.len(),
            room.as_mut_ptr(),
            room.len(),
        )
    }
}

/// The value of the integer literal of `length` bytes at `start`, as far as 2 to the 63.
pub fn integer(s: &[u8], start: usize, length: usize) -> u64 {
    // SAFETY: see the head of this file.
    unsafe { woffulent_integer(s.as_ptr(), s.len(), start, length) }
}

/// The bits of the binary literal of `length` bytes at `start` as a number, as far as 2 to the 63.
pub fn binary(s: &[u8], start: usize, length: usize) -> u64 {
    // SAFETY: see the head of this file.
    unsafe { woffulent_binary(s.as_ptr(), s.len(), start, length) }
}

/// How many bytes the value of the string literal of `length` bytes at `start` has.
pub fn string_length(s: &[u8], start: usize, length: usize) -> usize {
    // SAFETY: see the head of this file.
    unsafe { woffulent_string_length(s.as_ptr(), s.len(), start, length) }
}

/// Stores the value of the string literal of `length` bytes at `start` from `at` on, as far as `out` goes; how many bytes it has.
pub fn string_bytes(s: &[u8], start: usize, length: usize, out: &mut [u8], at: usize) -> usize {
    // SAFETY: see the head of this file.
    unsafe { woffulent_string_bytes(s.as_ptr(), s.len(), start, length, out.as_mut_ptr(), out.len(), at) }
}

/// Stores for each identifier the least one that is spelled alike, and for any other token its own number; whether there
/// was room. The chains are left for `symbol_of`.
pub fn intern(
    bytes: &[u8],
    starts: &[u32],
    lengths: &[u32],
    terminals: &[u8],
    symbols: &mut [u32],
    heads: &mut [u32],
    next: &mut [u32],
) -> bool {
    // SAFETY: see the head of this file.
    unsafe {
        woffulent_intern(
            bytes.as_ptr(),
            bytes.len(),
            starts.as_ptr(),
            starts.len(),
            lengths.as_ptr(),
            lengths.len(),
            terminals.as_ptr(),
            terminals.len(),
            symbols.as_mut_ptr(),
            symbols.len(),
            heads.as_mut_ptr(),
            heads.len(),
            next.as_mut_ptr(),
            next.len(),
        )
    }
}

/// The least identifier that is spelled like a word, by the chains that `intern` left.
pub fn symbol_of(
    bytes: &[u8],
    starts: &[u32],
    lengths: &[u32],
    heads: &[u32],
    next: &[u32],
    word: &[u8],
) -> Option<usize> {
    // SAFETY: see the head of this file.
    entry(unsafe {
        woffulent_symbol_of(
            bytes.as_ptr(),
            bytes.len(),
            starts.as_ptr(),
            starts.len(),
            lengths.as_ptr(),
            lengths.len(),
            heads.as_ptr(),
            heads.len(),
            next.as_ptr(),
            next.len(),
            word.as_ptr(),
            word.len(),
        )
    })
}

/// Chains the entries of a dictionary by their keys (0 is none); whether there was room.
pub fn build(keys: &[u64], heads: &mut [u32], next: &mut [u32]) -> bool {
    // SAFETY: see the head of this file.
    unsafe {
        woffulent_build(keys.as_ptr(), keys.len(), heads.as_mut_ptr(), heads.len(), next.as_mut_ptr(), next.len())
    }
}

/// An index, unless it is the number that stands for none.
fn entry(number: usize) -> Option<usize> {
    (number != usize::MAX).then_some(number)
}

/// The least entry with a key.
pub fn find(keys: &[u64], heads: &[u32], next: &[u32], key: u64) -> Option<usize> {
    // SAFETY: see the head of this file.
    entry(unsafe {
        woffulent_find(keys.as_ptr(), keys.len(), heads.as_ptr(), heads.len(), next.as_ptr(), next.len(), key)
    })
}

/// The next entry with the key of this one.
pub fn next_of(keys: &[u64], next: &[u32], at: usize) -> Option<usize> {
    // SAFETY: see the head of this file.
    entry(unsafe { woffulent_next_of(keys.as_ptr(), keys.len(), next.as_ptr(), next.len(), at) })
}

/// Marks by 1 all that a vertex reaches over one or more arcs; false where the columns are no graph with room.
pub fn reachable(first: &[u32], to: &[u32], from: usize, mark: &mut [u32], queue: &mut [u32]) -> bool {
    // SAFETY: see the head of this file.
    unsafe {
        woffulent_reachable(
            first.as_ptr(),
            first.len(),
            to.as_ptr(),
            to.len(),
            from,
            mark.as_mut_ptr(),
            mark.len(),
            queue.as_mut_ptr(),
            queue.len(),
        )
    }
}

/// What `order` answers.
#[derive(Clone, Copy, Debug, PartialEq, Eq)]
pub enum Sorted {
    Acyclic,
    /// The smallest vertex on a cycle.
    Cyclic(usize),
    Malformed,
    /// The column or scratch is too short.
    Short,
}

/// The vertices in an order in which each stands after all that it has arcs to.
pub fn order(first: &[u32], to: &[u32], column: &mut [u32], scratch: &mut [u32]) -> Sorted {
    // SAFETY: see the head of this file.
    let vertex = unsafe {
        woffulent_order(
            first.as_ptr(),
            first.len(),
            to.as_ptr(),
            to.len(),
            column.as_mut_ptr(),
            column.len(),
            scratch.as_mut_ptr(),
            scratch.len(),
        )
    };
    match usize::MAX - vertex {
        0 => Sorted::Malformed,
        1 => Sorted::Acyclic,
        2 => Sorted::Short,
        _ => Sorted::Cyclic(vertex),
    }
}

/// The group of each vertex, one for those that reach each other; false where the columns are no graph with room.
pub fn components(first: &[u32], to: &[u32], column: &mut [u32], scratch: &mut [u32]) -> bool {
    // SAFETY: see the head of this file.
    unsafe {
        woffulent_components(
            first.as_ptr(),
            first.len(),
            to.as_ptr(),
            to.len(),
            column.as_mut_ptr(),
            column.len(),
            scratch.as_mut_ptr(),
            scratch.len(),
        )
    }
}

/// The row of an answer: the kind that a call returns, the number and the length that it writes.
fn row(call: impl FnOnce(&mut i64, &mut u8) -> u8) -> AnswerRow {
    let (mut number, mut length) = (i64::MIN + 77, 77);
    let kind = call(&mut number, &mut length);
    AnswerRow { kind, number, length: length.into() }
}

/// The answer row of `a + b`.
pub fn add(a: i64, b: i64) -> AnswerRow {
    // SAFETY: numbers, and places that are lent to the call alone.
    row(|number, length| unsafe { woffulent_add(a, b, number, length) })
}

/// The answer row of `a - b`.
pub fn subtract(a: i64, b: i64) -> AnswerRow {
    // SAFETY: numbers, and places that are lent to the call alone.
    row(|number, length| unsafe { woffulent_subtract(a, b, number, length) })
}

/// The answer row of `a * b`.
pub fn multiply(a: i64, b: i64) -> AnswerRow {
    // SAFETY: numbers, and places that are lent to the call alone.
    row(|number, length| unsafe { woffulent_multiply(a, b, number, length) })
}

/// The answer row of `a DIV b`.
pub fn div(a: i64, b: i64) -> AnswerRow {
    // SAFETY: numbers, and places that are lent to the call alone.
    row(|number, length| unsafe { woffulent_div(a, b, number, length) })
}

/// The answer row of `a MOD b`.
pub fn modulo(a: i64, b: i64) -> AnswerRow {
    // SAFETY: numbers, and places that are lent to the call alone.
    row(|number, length| unsafe { woffulent_modulo(a, b, number, length) })
}

/// The answer row of `a ** b`.
pub fn power(a: i64, b: i64) -> AnswerRow {
    // SAFETY: numbers, and places that are lent to the call alone.
    row(|number, length| unsafe { woffulent_power(a, b, number, length) })
}

/// The answer row of `-a`.
pub fn negate(a: i64) -> AnswerRow {
    // SAFETY: numbers, and places that are lent to the call alone.
    row(|number, length| unsafe { woffulent_negate(a, number, length) })
}

/// A binary: the last `length` bits of a number.
#[derive(Clone, Copy, Debug, PartialEq, Eq)]
pub struct Binary {
    pub number: u64,
    pub length: u8,
}

/// The answer row of `a + b`.
pub fn join(a: Binary, b: Binary) -> AnswerRow {
    // SAFETY: numbers, and places that are lent to the call alone.
    row(|number, length| unsafe { woffulent_join(a.number, a.length, b.number, b.length, number, length) })
}

fn ordering(place: u8) -> Ordering {
    [Ordering::Less, Ordering::Equal, Ordering::Greater][usize::from(place)]
}

/// The order of two integers.
pub fn compare(a: i64, b: i64) -> Ordering {
    // SAFETY: numbers alone.
    ordering(unsafe { woffulent_compare(a, b) })
}

/// The order of two binaries.
pub fn compare_binaries(a: Binary, b: Binary) -> Ordering {
    // SAFETY: numbers alone.
    ordering(unsafe { woffulent_compare_binaries(a.number, a.length, b.number, b.length) })
}

/// The order of two strings.
pub fn compare_strings(a: &[u8], b: &[u8]) -> Ordering {
    // SAFETY: see the head of this file.
    ordering(unsafe { woffulent_compare_strings(a.as_ptr(), a.len(), b.as_ptr(), b.len()) })
}

/// `a AND b` of logicals by their numbers: 0 FALSE, 1 UNKNOWN, 2 TRUE.
pub fn and(a: u8, b: u8) -> u8 {
    // SAFETY: numbers alone.
    unsafe { woffulent_and(a, b) }
}

/// `a OR b`.
pub fn or(a: u8, b: u8) -> u8 {
    // SAFETY: numbers alone.
    unsafe { woffulent_or(a, b) }
}

/// `a XOR b`.
pub fn xor(a: u8, b: u8) -> u8 {
    // SAFETY: numbers alone.
    unsafe { woffulent_xor(a, b) }
}

/// `NOT a`.
pub fn not(a: u8) -> u8 {
    // SAFETY: a number alone.
    unsafe { woffulent_not(a) }
}

/// A relation of two logicals, by its place in `<`, `>`, `<=`, `>=`, `<>`, `=`, `:<>:`, `:=:`.
pub fn relate(a: u8, by: u8, b: u8) -> u8 {
    // SAFETY: numbers alone.
    unsafe { woffulent_relate(a, by, b) }
}

/// An operator of two operands; arithmetic, relations and connectives by their place among `-`, `*`, DIV, MOD, `**`; among `<`,
/// `>`, `<=`, `>=`, `<>`, `=`, `:<>:`, `:=:`; and among AND, OR, XOR.
#[derive(Clone, Copy, Debug, PartialEq, Eq)]
pub enum Operator {
    Plus,
    Arithmetic(u8),
    Relation(u8),
    Connective(u8),
}

/// The three numbers of a row; a length above 255 is one of 255.
fn parts(row: AnswerRow) -> (u8, i64, u8) {
    (row.kind, row.number, u8::try_from(row.length).unwrap_or(u8::MAX))
}

/// The answer row of an operator between two operands.
pub fn combined(operator: Operator, a: AnswerRow, b: AnswerRow) -> AnswerRow {
    let (class, place) = match operator {
        Operator::Plus => (0, 0),
        Operator::Arithmetic(place) => (1, place),
        Operator::Relation(place) => (2, place),
        Operator::Connective(place) => (3, place),
    };
    let ((kind_a, a, length_a), (kind_b, b, length_b)) = (parts(a), parts(b));
    // SAFETY: numbers, and places that are lent to the call alone.
    row(|number, length| unsafe {
        woffulent_combined(class, place, kind_a, a, length_a, kind_b, b, length_b, number, length)
    })
}

/// The answer row of a sign and its operand: 0 `+`, 1 `-`, 2 NOT.
pub fn applied(sign: u8, a: AnswerRow) -> AnswerRow {
    let (kind, z, bits) = parts(a);
    // SAFETY: numbers, and places that are lent to the call alone.
    row(|number, length| unsafe { woffulent_applied(sign, kind, z, bits, number, length) })
}

/// The answer row of an interval, by the places of its two relations.
pub fn between(first: u8, second: u8, low: AnswerRow, item: AnswerRow, high: AnswerRow) -> AnswerRow {
    let ((k, a, l), (m, b, n), (p, c, q)) = (parts(low), parts(item), parts(high));
    // SAFETY: numbers, and places that are lent to the call alone.
    row(|number, length| unsafe { woffulent_between(first, second, k, a, l, m, b, n, p, c, q, number, length) })
}

/// The answer row of a constant, from that of its expression and whether its type is BOOLEAN.
pub fn held(boolean: bool, a: AnswerRow) -> AnswerRow {
    let (kind, z, bits) = parts(a);
    // SAFETY: numbers, and places that are lent to the call alone.
    row(|number, length| unsafe { woffulent_held(boolean, kind, z, bits, number, length) })
}
