//! An accepted file: its schemas and constants, and its tables as tokens and nodes.

use crate::answer::Answer;
use crate::call::Numbers;
use crate::checker::Tables;
use crate::codes::{AnswerKind, NodeKind, Reply, TokenKind};
use std::borrow::Cow;

/// The five numbers of a report (R1).
#[derive(Clone, Copy, Debug, PartialEq, Eq)]
pub struct Report {
    /// Accepted, or why not.
    pub reply: Reply,
    /// The number beside the reply.
    pub number: u32,
    /// How many tokens there are.
    pub tokens: usize,
    /// How many nodes.
    pub nodes: usize,
    /// How many constants.
    pub constants: usize,
}

impl Report {
    pub(crate) fn new(Numbers { reply, number, tokens, nodes, constants }: Numbers) -> Self {
        // The proved call gives no other reply than these seventeen.
        let reply = Reply::from_number(reply).unwrap_or(Reply::NoToken);
        Report { reply, number, tokens: tokens as usize, nodes: nodes as usize, constants: constants as usize }
    }
}

/// An accepted file.
#[derive(Clone, Debug)]
pub struct File<'a> {
    src: &'a [u8],
    tables: Cow<'a, Tables>,
    report: Report,
}

impl<'a> File<'a> {
    pub(crate) fn new(src: &'a [u8], tables: Cow<'a, Tables>, report: Report) -> Self {
        File { src, tables, report }
    }

    /// The bytes that were checked.
    pub fn source(&self) -> &'a [u8] {
        self.src
    }

    /// The report of the check.
    pub fn report(&self) -> Report {
        self.report
    }

    /// The tokens in the order of the text.
    pub fn tokens(&self) -> impl Iterator<Item = Token<'a>> + '_ {
        (0..self.report.tokens).filter_map(|number| self.token(number))
    }

    /// A token by its number.
    pub fn token(&self, number: usize) -> Option<Token<'a>> {
        if number >= self.report.tokens {
            return None;
        }
        let start = *self.tables.token_starts.get(number)? as usize;
        let end = start + *self.tables.token_lengths.get(number)? as usize;
        let kind = TokenKind::from_number(*self.tables.token_kinds.get(number)?)?;
        Some(Token { kind, start, text: self.src.get(start..end)? })
    }

    /// The nodes in post-order: children before parents (G30).
    pub fn nodes(&self) -> impl Iterator<Item = Node<'_>> {
        (0..self.report.nodes).filter_map(|number| self.node(number))
    }

    /// A node by its number.
    pub fn node(&self, number: usize) -> Option<Node<'_>> {
        let kind = *self.tables.node_kinds.get(number).filter(|_| number < self.report.nodes)?;
        NodeKind::from_number(kind).map(|kind| Node { file: self, number, kind })
    }

    /// The schemas in the order of the text.
    pub fn schemas(&self) -> impl Iterator<Item = Schema<'_>> {
        let mut before = 0;
        self.nodes().filter(|node| node.kind == NodeKind::Schema).map(move |node| {
            let schema = Schema { node, row: before };
            before += node.below(NodeKind::Constant).count();
            schema
        })
    }

    /// The constants in the order of the text.
    pub fn constants(&self) -> impl Iterator<Item = Constant<'_>> {
        self.schemas().flat_map(|schema| schema.constants())
    }

    /// The answer of a constant, by the names of its schema and its own, in letters of either case.
    pub fn constant(&self, schema: &str, name: &str) -> Option<Answer<'_>> {
        let schema = self.schemas().find(|found| found.name().eq_ignore_ascii_case(schema))?;
        let constant = schema.constants().find(|found| found.name().eq_ignore_ascii_case(name))?;
        Some(constant.answer())
    }

    /// The answer in a row of the answer table.
    pub fn answer(&self, row: usize) -> Option<Answer<'_>> {
        let item = |node| self.node(node).map_or("", |item: Node| item.name());
        Some(Answer::from_row(self.answer_row(row)?, &self.tables.room, item))
    }

    /// Kind, number and length of an answer, as the row holds them (K35).
    pub fn answer_row(&self, row: usize) -> Option<(u8, i64, u8)> {
        let (kinds, tables) = (&self.tables.answer_kinds, &self.tables);
        let kind = *kinds.get(row).filter(|_| row < self.report.constants)?;
        Some((kind, *tables.answer_numbers.get(row)?, *tables.answer_lengths.get(row)?))
    }

    /// The bytes of all string answers, in the order of their rows (K36): what is used of the room.
    pub fn room(&self) -> &[u8] {
        let rows = (0..self.report.constants).filter_map(|row| self.answer_row(row));
        let strings = rows.filter(|&(kind, ..)| kind == AnswerKind::String.number());
        let used: usize = strings.map(|(.., length)| usize::from(length)).sum();
        self.tables.room.get(..used).unwrap_or_default()
    }
}

/// A token of an accepted file.
#[derive(Clone, Copy, Debug, PartialEq, Eq)]
pub struct Token<'a> {
    /// What it is.
    pub kind: TokenKind,
    /// The place of its first byte.
    pub start: usize,
    /// Its bytes.
    pub text: &'a [u8],
}

/// A node of an accepted file.
#[derive(Clone, Copy, Debug)]
pub struct Node<'a> {
    file: &'a File<'a>,
    number: usize,
    kind: NodeKind,
}

impl<'a> Node<'a> {
    /// What it is.
    pub fn kind(&self) -> NodeKind {
        self.kind
    }

    /// Its number in the node table.
    pub fn number(&self) -> usize {
        self.number
    }

    /// The number of its naming token.
    pub fn token_number(&self) -> usize {
        self.file.tables.node_tokens[self.number] as usize
    }

    /// Its naming token.
    pub fn token(&self) -> Option<Token<'a>> {
        self.file.token(self.token_number())
    }

    /// The text of its naming token; of a declaration that is its name.
    pub fn name(&self) -> &'a str {
        self.token().and_then(|token| std::str::from_utf8(token.text).ok()).unwrap_or("")
    }

    /// How many nodes it has, itself and all below it.
    pub fn size(&self) -> usize {
        self.file.tables.node_sizes[self.number] as usize
    }

    /// The declaration that a name or qualified item means.
    pub fn binding(&self) -> Option<Node<'a>> {
        self.file.tables.node_bindings[self.number].checked_sub(1).and_then(|node| self.file.node(node as usize))
    }

    /// Its children from left to right.
    pub fn children(&self) -> Vec<Node<'a>> {
        let first = self.first();
        let mut children = Vec::new();
        let mut end = self.number;
        while let Some(child) = end.checked_sub(1).filter(|&last| last >= first).and_then(|last| self.file.node(last)) {
            children.push(child);
            end = child.first();
        }
        children.reverse();
        children
    }

    /// The first node of its subtree.
    fn first(&self) -> usize {
        (self.number + 1).saturating_sub(self.size().max(1))
    }

    /// The nodes of a kind below it, from left to right.
    fn below(&self, kind: NodeKind) -> impl Iterator<Item = Node<'a>> {
        let file = self.file;
        (self.first()..self.number).filter_map(move |number| file.node(number)).filter(move |node| node.kind == kind)
    }
}

/// A schema of an accepted file.
#[derive(Clone, Copy, Debug)]
pub struct Schema<'a> {
    node: Node<'a>,
    row: usize,
}

impl<'a> Schema<'a> {
    /// Its name, as it is written.
    pub fn name(&self) -> &'a str {
        self.node.name()
    }

    /// Its node.
    pub fn node(&self) -> Node<'a> {
        self.node
    }

    /// Its constants in the order of the text.
    pub fn constants(&self) -> impl Iterator<Item = Constant<'a>> {
        let (schema, rows) = (self.node, self.row..);
        rows.zip(schema.below(NodeKind::Constant)).map(move |(row, node)| Constant { schema, node, row })
    }
}

/// A constant of an accepted file.
#[derive(Clone, Copy, Debug)]
pub struct Constant<'a> {
    schema: Node<'a>,
    node: Node<'a>,
    row: usize,
}

impl<'a> Constant<'a> {
    /// The name of its schema, as it is written.
    pub fn schema(&self) -> &'a str {
        self.schema.name()
    }

    /// Its own name, as it is written.
    pub fn name(&self) -> &'a str {
        self.node.name()
    }

    /// Its node.
    pub fn node(&self) -> Node<'a> {
        self.node
    }

    /// What it comes to.
    pub fn answer(&self) -> Answer<'a> {
        self.node.file.answer(self.row).unwrap_or(Answer::Indeterminate)
    }
}
