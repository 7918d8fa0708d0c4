//! What each declaration holds, gathered in one pass over the nodes.

use std::ops::Range;

use crate::parser::{kind, role, SyntaxRow};

/// A schema's node, and its declarations.
#[derive(Clone, Debug)]
pub struct Schema {
    pub node: u32,
    pub declarations: Range<u32>,
}

#[derive(Clone, Copy, Debug, PartialEq, Eq)]
pub enum Sort {
    Constant,
    Type,
    Entity,
}

/// A constant, type or entity, with the parts of the outline's lists that lie within it.
#[derive(Clone, Debug)]
pub struct Declaration {
    pub sort: Sort,
    pub node: u32,
    pub schema: u32,
    names: Range<u32>,
    items: Range<u32>,
    type_names: Range<u32>,
    uses: Range<u32>,
}

/// The file's declarations in text order; nodes are given by their numbers.
#[derive(Debug, Default)]
pub struct Outline {
    pub schemas: Vec<Schema>,
    pub declarations: Vec<Declaration>,
    /// The declarations that are constants.
    pub constants: Vec<u32>,
    /// Of each node that is a declaration or an item, the declaration that it is or lies in.
    pub owner: Vec<u32>,
    /// Attributes and labelled rules.
    names: Vec<u32>,
    items: Vec<u32>,
    /// Names of types and supertypes.
    type_names: Vec<u32>,
    /// Names, `type.item` and SELF in expressions.
    uses: Vec<u32>,
}

impl Outline {
    pub fn new(nodes: &[SyntaxRow]) -> Self {
        let mut outline = Outline { owner: vec![0; nodes.len()], ..Outline::default() };
        for (number, node) in nodes.iter().enumerate() {
            outline.add(number as u32, node);
        }
        outline
    }

    fn add(&mut self, number: u32, node: &SyntaxRow) {
        match node.kind {
            kind::NAME if node.role != role::EXPRESSION_NAME => self.type_names.push(number),
            kind::NAME | kind::QUALIFIED_ITEM | kind::SELF => self.uses.push(number),
            kind::ITEM => {
                self.owner[number as usize] = self.declarations.len() as u32;
                self.items.push(number);
            }
            kind::ATTRIBUTE | kind::DERIVED => self.names.push(number),
            kind::RULE if node.role == role::LABELLED => self.names.push(number),
            kind::CONSTANT => {
                self.constants.push(self.declarations.len() as u32);
                self.declare(Sort::Constant, number);
            }
            kind::TYPE => self.declare(Sort::Type, number),
            kind::ENTITY => self.declare(Sort::Entity, number),
            kind::SCHEMA => {
                let start = self.schemas.last().map_or(0, |schema| schema.declarations.end);
                let declarations = start..self.declarations.len() as u32;
                self.schemas.push(Schema { node: number, declarations });
            }
            _ => {}
        }
    }

    /// A declaration stands after all that it holds: it takes what the ones before it have left.
    fn declare(&mut self, sort: Sort, node: u32) {
        let end = |part: fn(&Declaration) -> &Range<u32>| self.declarations.last().map_or(0, |last| part(last).end);
        let declaration = Declaration {
            sort,
            node,
            schema: self.schemas.len() as u32,
            names: end(|last| &last.names)..self.names.len() as u32,
            items: end(|last| &last.items)..self.items.len() as u32,
            type_names: end(|last| &last.type_names)..self.type_names.len() as u32,
            uses: end(|last| &last.uses)..self.uses.len() as u32,
        };
        self.owner[node as usize] = self.declarations.len() as u32;
        self.declarations.push(declaration);
    }

    /// A declaration's own attributes and labelled rules.
    pub fn names(&self, declaration: &Declaration) -> &[u32] {
        part(&self.names, &declaration.names)
    }

    /// An enumeration's items; empty for every other declaration.
    pub fn items(&self, declaration: &Declaration) -> &[u32] {
        part(&self.items, &declaration.items)
    }

    /// The names of types and supertypes that a declaration holds.
    pub fn type_names(&self, declaration: &Declaration) -> &[u32] {
        part(&self.type_names, &declaration.type_names)
    }

    /// The names, `type.item` and SELF in a declaration's expressions.
    pub fn uses(&self, declaration: &Declaration) -> &[u32] {
        part(&self.uses, &declaration.uses)
    }
}

fn part<'a>(list: &'a [u32], range: &Range<u32>) -> &'a [u32] {
    &list[range.start as usize..range.end as usize]
}
