//! A file that keeps the grammar: its rows, and what its names mean where they mean one thing.

use super::reader::{self, Role, Row};
use super::tokens::Token;
use crate::codes::{NodeKind, TokenKind};
use crate::text::{position, quoted};
use std::collections::HashMap;
use std::ops::Range;

/// A node, by its row.
pub type Node = usize;

/// A schema, and a name without case.
type Key = (Node, Vec<u8>);

#[derive(Debug)]
pub struct Tree<'a> {
    src: &'a [u8],
    tokens: &'a [Token],
    pub rows: Vec<Row>,
    /// Of each node, the schema that it is or lies in.
    schemas: Vec<Node>,
    /// Of each node, the constant, type or entity that it is or lies in.
    owners: Vec<Option<Node>>,
    /// The constants, types and entities of each schema; of two that are alike the first.
    declared: HashMap<Key, Node>,
    items: HashMap<Key, Vec<Node>>,
}

impl<'a> Tree<'a> {
    /// The tree of a file's tokens, if they have one.
    pub fn read(src: &'a [u8], tokens: &'a [Token]) -> Option<Self> {
        let rows = reader::read(src, tokens).ok()?;
        let (schemas, owners) = around(&rows);
        let mut tree = Tree { src, tokens, rows, schemas, owners, declared: HashMap::new(), items: HashMap::new() };
        for node in 0..tree.rows.len() {
            let key = (tree.schemas[node], tree.text(node).to_ascii_lowercase());
            if is_declaration(tree.rows[node].kind) {
                tree.declared.entry(key).or_insert(node);
            } else if tree.rows[node].kind == NodeKind::Item {
                tree.items.entry(key).or_default().push(node);
            }
        }
        Some(tree)
    }

    /// The number of the token that begins at a place.
    pub fn token_at(&self, place: usize) -> Option<usize> {
        self.tokens.binary_search_by_key(&place, |token| token.start).ok()
    }

    /// The bytes of a token.
    pub fn token_text(&self, token: usize) -> &'a [u8] {
        self.tokens.get(token).map_or(&[], |token| token.text(self.src))
    }

    /// The first node that is named by a token and of the sort asked for.
    pub fn named(&self, token: usize, belongs: impl Fn(&Row) -> bool) -> Option<Node> {
        self.rows.iter().position(|row| row.token == token && belongs(row))
    }

    pub fn kind(&self, node: Node) -> NodeKind {
        self.rows[node].kind
    }

    /// Whether a node is named by a string, which tells such a literal from others of its kind (G32).
    pub fn is_string(&self, node: Node) -> bool {
        self.tokens.get(self.rows[node].token).is_some_and(|token| token.kind == TokenKind::String)
    }

    /// The bytes of a node's naming token.
    pub fn text(&self, node: Node) -> &'a [u8] {
        self.token_text(self.rows[node].token)
    }

    /// The same between quotes.
    pub fn name(&self, node: Node) -> String {
        quoted(self.text(node))
    }

    pub fn span(&self, node: Node) -> Range<usize> {
        self.tokens.get(self.rows[node].token).map_or(0..0, Token::span)
    }

    pub fn line(&self, node: Node) -> usize {
        position(self.src, self.span(node).start).line
    }

    /// What a declaration is, its name and its line.
    pub fn described(&self, node: Node) -> String {
        format!("{} {} (line {})", sort(self.kind(node)), self.name(node), self.line(node))
    }

    /// The nodes of a subtree but its root.
    pub fn below(&self, node: Node) -> Range<Node> {
        (node + 1).saturating_sub(self.rows[node].size)..node
    }

    pub fn schema(&self, node: Node) -> Node {
        self.schemas[node]
    }

    /// The constant, type or entity that a node is or lies in.
    pub fn owner(&self, node: Node) -> Option<Node> {
        self.owners[node]
    }

    /// The constant, type or entity of a name, in the schema that a node lies in (N5).
    pub fn declared(&self, from: Node, name: &[u8]) -> Option<Node> {
        self.declared.get(&(self.schema(from), name.to_ascii_lowercase())).copied()
    }

    /// The items of a name in the schema that a node lies in.
    pub fn items(&self, from: Node, name: &[u8]) -> &[Node] {
        self.items.get(&(self.schema(from), name.to_ascii_lowercase())).map_or(&[], Vec::as_slice)
    }

    /// The items of a type, if it is itself declared as an enumeration.
    pub fn items_of(&self, declaration: Node) -> impl Iterator<Item = Node> + '_ {
        let below = if self.kind(declaration) == NodeKind::Type { self.below(declaration) } else { 0..0 };
        below.filter(|&node| self.kind(node) == NodeKind::Item)
    }

    /// The type that an item belongs to.
    pub fn type_of_item(&self, item: Node) -> Node {
        self.owner(item).unwrap_or(item)
    }

    /// The attributes and labels of an entity, or the labels of a type.
    pub fn own(&self, owner: Node, name: &[u8]) -> Option<Node> {
        self.below(owner).find(|&node| self.is_member(node) && self.text(node).eq_ignore_ascii_case(name))
    }

    /// The attributes of a name that an entity inherits (N9).
    pub fn inherited(&self, entity: Node, name: &[u8]) -> Vec<Node> {
        let mut seen = vec![false; self.rows.len()];
        let mut is_new = |&above: &Node| !std::mem::replace(&mut seen[above], true);
        let mut reached: Vec<Node> = self.supertypes(entity).filter(&mut is_new).collect();
        let mut next = 0;
        while let Some(&above) = reached.get(next) {
            reached.extend(self.supertypes(above).filter(&mut is_new));
            next += 1;
        }
        let attributes = reached.iter().flat_map(|&above| self.below(above)).filter(|&node| {
            matches!(self.kind(node), NodeKind::AttributeName | NodeKind::DerivedAttribute)
                && self.text(node).eq_ignore_ascii_case(name)
        });
        attributes.collect()
    }

    fn supertypes(&self, entity: Node) -> impl Iterator<Item = Node> + '_ {
        let names = self.below(entity).filter(|&node| self.rows[node].role == Role::Supertype);
        names.filter_map(|node| self.declared(node, self.text(node)))
    }

    /// Whether a node declares an attribute or a label.
    pub fn is_member(&self, node: Node) -> bool {
        matches!(self.kind(node), NodeKind::AttributeName | NodeKind::DerivedAttribute)
            || self.rows[node].role == Role::Labelled
    }
}

/// Of each node, the schema that it is or lies in, and the constant, type or entity.
fn around(rows: &[Row]) -> (Vec<Node>, Vec<Option<Node>>) {
    let (mut schemas, mut owners) = (vec![0; rows.len()], vec![None; rows.len()]);
    let (mut schema, mut owner) = (rows.len().saturating_sub(1), None);
    // Parents stand behind their children, so that they are met first from behind.
    for (node, row) in rows.iter().enumerate().rev() {
        match row.kind {
            NodeKind::Schema => (schema, owner) = (node, None),
            kind if is_declaration(kind) => owner = Some(node),
            _ => {}
        }
        (schemas[node], owners[node]) = (schema, owner);
    }
    (schemas, owners)
}

pub fn is_declaration(kind: NodeKind) -> bool {
    matches!(kind, NodeKind::Constant | NodeKind::Type | NodeKind::Entity)
}

/// What a declaration is, in a word or two.
pub fn sort(kind: NodeKind) -> &'static str {
    match kind {
        NodeKind::Constant => "constant",
        NodeKind::Type => "type",
        NodeKind::Entity => "entity",
        NodeKind::Schema => "schema",
        NodeKind::Item => "item",
        NodeKind::Rule => "label",
        NodeKind::DerivedAttribute => "derived attribute",
        NodeKind::AttributeName => "attribute",
        _ => "name",
    }
}
