//! The public calls from Rust, each lent column with entries before and behind it that must stay.

mod stack;

pub use stack::stack_of;

use compare::cases;
use compare::difference::Checker;
use compare::random::{compare, every_reply, needed, well_typed_with, Strings};
pub use reference::check as by_reference;
use reference::{AnswerRow, Checked, Lent, NodeRow, Report, TokenRow};
use std::fmt::Debug;
use woffulent::call::{self, AnswerColumns, NodeColumns, Numbers, Record, TokenColumns};

/// A report as the reference gives it.
fn report(Numbers { reply, number, tokens, nodes, constants }: Numbers) -> Report {
    Report { reply: reply.into(), number: number.into(), tokens, nodes, constants }
}

/// What columns hold before a call, by a seed and an entry.
trait Pattern: Copy + PartialEq + Debug + Default {
    fn from_bits(bits: u64) -> Self;

    fn at(seed: u64, i: usize) -> Self {
        Self::from_bits((seed ^ i as u64).wrapping_mul(0x9e37_79b9_7f4a_7c15) >> 7)
    }
}

impl Pattern for u8 {
    fn from_bits(bits: u64) -> Self {
        bits as u8
    }
}

impl Pattern for u32 {
    fn from_bits(bits: u64) -> Self {
        bits as u32
    }
}

impl Pattern for i64 {
    fn from_bits(bits: u64) -> Self {
        bits as i64
    }
}

impl Pattern for Record {
    fn from_bits(bits: u64) -> Self {
        Record { kind: bits as u8, number: bits as i64, length: (bits >> 8) as u8 }
    }
}

/// Entries before and behind a column.
const GUARD: usize = 8;

/// A column with guards, in a pattern that a call must not touch outside of it and must not read inside.
#[derive(Clone, Debug)]
struct Column<T> {
    entries: Vec<T>,
    length: usize,
    seed: u64,
}

impl<T: Pattern> Column<T> {
    fn new(length: usize, seed: u64) -> Self {
        Column { entries: (0..length + 2 * GUARD).map(|i| T::at(seed, i)).collect(), length, seed }
    }

    fn lent(&mut self) -> &mut [T] {
        &mut self.entries[GUARD..GUARD + self.length]
    }

    /// What it holds, where the entries around it are the pattern still.
    fn held(&self) -> Vec<T> {
        let outside = (0..GUARD).chain(GUARD + self.length..self.length + 2 * GUARD);
        outside.for_each(|i| {
            assert_eq!(self.entries[i], T::at(self.seed, i), "entry {i} of {} around a column", self.length)
        });
        self.entries[GUARD..GUARD + self.length].to_vec()
    }
}

/// The lengths of the columns of tokens, of nodes and of answers, and of the room.
#[derive(Clone, Copy, Debug, PartialEq, Eq)]
pub struct Lengths {
    pub tokens: [usize; 3],
    pub nodes: [usize; 4],
    pub answers: [usize; 3],
    pub room: usize,
}

impl Lengths {
    pub fn even([tokens, nodes, answers, room]: Lent) -> Self {
        Lengths { tokens: [tokens; 3], nodes: [nodes; 4], answers: [answers; 3], room }
    }

    /// A table is as long as its shortest column.
    pub fn lent(&self) -> Lent {
        let least = |lengths: &[usize]| lengths.iter().copied().min().unwrap_or(0);
        [least(&self.tokens), least(&self.nodes), least(&self.answers), self.room]
    }
}

/// The columns of tokens and of nodes, each as long as it was lent.
#[derive(Clone, Debug, PartialEq, Eq)]
pub struct Tree {
    pub token_kinds: Vec<u8>,
    pub token_starts: Vec<u32>,
    pub token_lengths: Vec<u32>,
    pub node_kinds: Vec<u8>,
    pub node_tokens: Vec<u32>,
    pub node_sizes: Vec<u32>,
    pub node_bindings: Vec<u32>,
}

impl Tree {
    /// What a result of the reference stands for.
    fn of(Checked { tokens, nodes, .. }: &Checked, t: [usize; 3], n: [usize; 4]) -> Self {
        Tree {
            token_kinds: behind(tokens.iter().map(|row| row.kind), t[0]),
            token_starts: behind(tokens.iter().map(|row| row.start), t[1]),
            token_lengths: behind(tokens.iter().map(|row| row.length), t[2]),
            node_kinds: behind(nodes.iter().map(|row| row.kind), n[0]),
            node_tokens: behind(nodes.iter().map(|row| row.token), n[1]),
            node_sizes: behind(nodes.iter().map(|row| row.size), n[2]),
            node_bindings: behind(nodes.iter().map(|row| row.binding), n[3]),
        }
    }

    fn tokens(&self) -> Vec<TokenRow> {
        let row =
            |i| TokenRow { kind: self.token_kinds[i], start: self.token_starts[i], length: self.token_lengths[i] };
        (0..self.token_kinds.len()).map(row).collect()
    }

    fn nodes(&self) -> Vec<NodeRow> {
        let row = |i: usize| NodeRow {
            kind: self.node_kinds[i],
            token: self.node_tokens[i],
            size: self.node_sizes[i],
            binding: self.node_bindings[i],
        };
        (0..self.node_kinds.len()).map(row).collect()
    }
}

/// What the call leaves: the report, each column and the room.
#[derive(Clone, Debug, PartialEq, Eq)]
pub struct Columns {
    pub report: Report,
    pub tree: Tree,
    pub answer_kinds: Vec<u8>,
    pub answer_numbers: Vec<i64>,
    pub answer_lengths: Vec<u8>,
    pub room: Vec<u8>,
}

/// What the call with records leaves.
#[derive(Clone, Debug, PartialEq, Eq)]
pub struct Recorded {
    pub report: Report,
    pub tree: Tree,
    pub records: Vec<Record>,
    pub room: Vec<u8>,
}

/// Columns of tokens and nodes to lend, with a pattern in and around them.
#[derive(Clone, Debug)]
struct TreeTables {
    token_kinds: Column<u8>,
    token_starts: Column<u32>,
    token_lengths: Column<u32>,
    node_kinds: Column<u8>,
    node_tokens: Column<u32>,
    node_sizes: Column<u32>,
    node_bindings: Column<u32>,
}

impl TreeTables {
    fn new(tokens: [usize; 3], nodes: [usize; 4], seed: u64) -> Self {
        TreeTables {
            token_kinds: Column::new(tokens[0], seed),
            token_starts: Column::new(tokens[1], seed),
            token_lengths: Column::new(tokens[2], seed),
            node_kinds: Column::new(nodes[0], seed),
            node_tokens: Column::new(nodes[1], seed),
            node_sizes: Column::new(nodes[2], seed),
            node_bindings: Column::new(nodes[3], seed),
        }
    }

    fn lent(&mut self) -> (TokenColumns<'_>, NodeColumns<'_>) {
        let tokens = TokenColumns {
            kinds: self.token_kinds.lent(),
            starts: self.token_starts.lent(),
            lengths: self.token_lengths.lent(),
        };
        let nodes = NodeColumns {
            kinds: self.node_kinds.lent(),
            tokens: self.node_tokens.lent(),
            sizes: self.node_sizes.lent(),
            bindings: self.node_bindings.lent(),
        };
        (tokens, nodes)
    }

    fn held(&self) -> Tree {
        Tree {
            token_kinds: self.token_kinds.held(),
            token_starts: self.token_starts.held(),
            token_lengths: self.token_lengths.held(),
            node_kinds: self.node_kinds.held(),
            node_tokens: self.node_tokens.held(),
            node_sizes: self.node_sizes.held(),
            node_bindings: self.node_bindings.held(),
        }
    }
}

/// Ten columns and a room to lend.
#[derive(Clone, Debug)]
pub struct Tables {
    tree: TreeTables,
    answer_kinds: Column<u8>,
    answer_numbers: Column<i64>,
    answer_lengths: Column<u8>,
    room: Column<u8>,
}

impl Tables {
    pub fn new(Lengths { tokens, nodes, answers, room }: Lengths, seed: u64) -> Self {
        Tables {
            tree: TreeTables::new(tokens, nodes, seed),
            answer_kinds: Column::new(answers[0], seed),
            answer_numbers: Column::new(answers[1], seed),
            answer_lengths: Column::new(answers[2], seed),
            room: Column::new(room, seed),
        }
    }

    /// Checks a file with these columns lent.
    pub fn check(&mut self, src: &[u8]) -> Report {
        let (tokens, nodes) = self.tree.lent();
        let answers = AnswerColumns {
            kinds: self.answer_kinds.lent(),
            numbers: self.answer_numbers.lent(),
            lengths: self.answer_lengths.lent(),
        };
        report(call::check(src, tokens, nodes, answers, self.room.lent()))
    }
}

/// Seven columns, a slice of records and a room to lend.
#[derive(Clone, Debug)]
pub struct RecordTables {
    tree: TreeTables,
    records: Column<Record>,
    room: Column<u8>,
}

impl RecordTables {
    pub fn new([tokens, nodes, records, room]: Lent, seed: u64) -> Self {
        let tree = TreeTables::new([tokens; 3], [nodes; 4], seed);
        RecordTables { tree, records: Column::new(records, seed), room: Column::new(room, seed) }
    }

    /// Checks a file with these lent.
    pub fn check(&mut self, src: &[u8]) -> Report {
        let (tokens, nodes) = self.tree.lent();
        report(call::check_records(src, tokens, nodes, self.records.lent(), self.room.lent()))
    }
}

/// Checks a file with columns of these lengths; what they hold before goes by a seed.
pub fn check_columns(src: &[u8], lengths: Lengths, seed: u64) -> Columns {
    let mut tables = Tables::new(lengths, seed);
    let report = tables.check(src);
    Columns {
        report,
        tree: tables.tree.held(),
        answer_kinds: tables.answer_kinds.held(),
        answer_numbers: tables.answer_numbers.held(),
        answer_lengths: tables.answer_lengths.held(),
        room: tables.room.held(),
    }
}

/// The same with tables of so many rows and records, and such a room.
pub fn record_columns(src: &[u8], lent: Lent, seed: u64) -> Recorded {
    let mut tables = RecordTables::new(lent, seed);
    let report = tables.check(src);
    Recorded { report, tree: tables.tree.held(), records: tables.records.held(), room: tables.room.held() }
}

/// Entries of a column behind the rows of its table.
fn behind<T: Copy + Default>(rows: impl Iterator<Item = T>, length: usize) -> Vec<T> {
    rows.chain(std::iter::repeat(T::default())).take(length).collect()
}

/// The columns that a result of the reference stands for, each as long as it was lent.
pub fn columns_of(checked: &Checked, Lengths { tokens, nodes, answers, room }: Lengths) -> Columns {
    Columns {
        report: checked.report,
        tree: Tree::of(checked, tokens, nodes),
        answer_kinds: behind(checked.answers.iter().map(|row| row.kind), answers[0]),
        answer_numbers: behind(checked.answers.iter().map(|row| row.number), answers[1]),
        answer_lengths: behind(checked.answers.iter().map(|row| row.length as u8), answers[2]),
        room: behind(checked.room.iter().copied(), room),
    }
}

/// The same with records.
pub fn recorded(checked: &Checked, [tokens, nodes, records, room]: Lent) -> Recorded {
    let answer = |row: &AnswerRow| Record { kind: row.kind, number: row.number, length: row.length as u8 };
    Recorded {
        report: checked.report,
        tree: Tree::of(checked, [tokens; 3], [nodes; 4]),
        records: behind(checked.answers.iter().map(answer), records),
        room: behind(checked.room.iter().copied(), room),
    }
}

/// Checks a file with tables and a room of these lengths, as the reference does.
pub fn check(src: &[u8], lent: Lent) -> Checked {
    let Columns { report, tree, answer_kinds, answer_numbers, answer_lengths, room } =
        check_columns(src, Lengths::even(lent), src.len() as u64);
    let answer =
        |i: usize| AnswerRow { kind: answer_kinds[i], number: answer_numbers[i], length: answer_lengths[i].into() };
    let answers = (0..answer_kinds.len()).map(answer).collect();
    Checked { report, tokens: tree.tokens(), nodes: tree.nodes(), answers, room }
}

/// The same by the call with records.
pub fn check_records(src: &[u8], lent: Lent) -> Checked {
    let Recorded { report, tree, records, room } = record_columns(src, lent, src.len() as u64);
    let answer = |Record { kind, number, length }| AnswerRow { kind, number, length: length.into() };
    let answers = records.into_iter().map(answer).collect();
    Checked { report, tokens: tree.tokens(), nodes: tree.nodes(), answers, room }
}

/// Files that are checked with rooms of every length, their size, and the bytes that each needs at least.
const ROOM_FILES: usize = 50;
const ROOM_FILE_SIZE: usize = 600;
const FEWEST_BYTES: usize = 20;

/// Files with strings, each with every room from no byte to one more than needed, and tables as long as needed.
pub fn every_room() -> impl Iterator<Item = (Vec<u8>, Lent)> {
    let files = (0..).map(|seed| well_typed_with(Strings::Most, seed, ROOM_FILE_SIZE));
    let with_needs = files.map(|file| (needed(&file, &by_reference), file));
    let chosen = with_needs.filter(|([.., room], _)| *room >= FEWEST_BYTES).take(ROOM_FILES);
    chosen.flat_map(|([tokens, nodes, answers, bytes], file)| {
        (0..=bytes + 1).map(move |room| (file.clone(), [tokens, nodes, answers, room]))
    })
}

/// How often each reply must occur at least among random files.
const FLOOR: u64 = 20;

/// Holds a call to the reference on random and damaged files from a seed on.
pub fn compare_random(files: u64, first_seed: u64, check: impl Checker) {
    let tally = compare(files, first_seed, check, by_reference).unwrap_or_else(|difference| panic!("{difference}"));
    println!("{tally}");
    every_reply().for_each(|reply| assert!(tally.reply(reply) >= FLOOR, "reply {reply} is too rare\n{tally}"));
}

/// Holds a call to the reference on every case.
pub fn compare_cases(check: impl Checker) {
    for case in cases::all() {
        for lent in [needed(&case.input, &by_reference), case.lengths] {
            assert_eq!(check(&case.input, lent), by_reference(&case.input, lent), "{}", case.input.escape_ascii());
        }
    }
}
