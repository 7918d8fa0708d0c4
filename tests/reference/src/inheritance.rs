//! Inherited attributes: which entities are ancestors of which, as rows of bits, so that wide and deep hierarchies cost
//! no more than their edges times a short row.

use std::collections::HashMap;

use crate::outline::Sort;
use crate::parser::{kind, role};
use crate::symbols::{Entry, Index};
use crate::File;

const NONE: u32 = u32::MAX;

/// The attributes that a name may be inherited from.
pub enum Inherited {
    None,
    One(u32),
    Several,
}

pub struct Inheritance<'a> {
    file: &'a File<'a>,
    /// Attributes and labels by symbol; an entry's scope is its declaration.
    names: &'a Index,
    /// Of each declaration that is an entity, its column.
    column: Vec<u32>,
    /// Of each column, the declaration.
    entities: Vec<u32>,
    /// Of each declaration that has supertypes, its row.
    row: Vec<u32>,
    /// The words of a row.
    width: usize,
    rows: Vec<u64>,
    /// The declaring entities of those symbols that have more of them than a row has words.
    declaring: HashMap<u32, Vec<u64>>,
}

impl<'a> Inheritance<'a> {
    /// Needs the supertypes bound, free of cycles, and an order with supertypes first.
    pub fn new(file: &'a File<'a>, names: &'a Index, bindings: &[u32], order: &[u32]) -> Self {
        let declarations = &file.outline.declarations;
        let mut column = vec![NONE; declarations.len()];
        let mut entities = Vec::new();
        for (number, declaration) in declarations.iter().enumerate() {
            if declaration.sort == Sort::Entity {
                column[number] = entities.len() as u32;
                entities.push(number as u32);
            }
        }
        let width = entities.len().div_ceil(64);
        let row = vec![NONE; declarations.len()];
        let mut inheritance =
            Inheritance { file, names, column, entities, row, width, rows: Vec::new(), declaring: HashMap::new() };
        for &entity in order {
            inheritance.add(entity, bindings);
        }
        if !inheritance.rows.is_empty() {
            inheritance.mark_declaring();
        }
        inheritance
    }

    /// An entity's ancestors are its supertypes and theirs.
    fn add(&mut self, entity: u32, bindings: &[u32]) {
        let outline = self.file.outline;
        for &node in outline.type_names(&outline.declarations[entity as usize]) {
            if self.file.nodes[node as usize].role != role::SUPERTYPE {
                break; // Supertypes stand before all other type names of an entity.
            }
            let supertype = outline.owner[bindings[node as usize] as usize - 1];
            self.inherit(entity, supertype);
        }
    }

    fn inherit(&mut self, entity: u32, supertype: u32) {
        if self.row[entity as usize] == NONE {
            self.row[entity as usize] = (self.rows.len() / self.width) as u32;
            self.rows.resize(self.rows.len() + self.width, 0);
        }
        // Rows are made in an order with supertypes first, so the entity's is the last.
        let start = self.rows.len() - self.width;
        let (done, own) = self.rows.split_at_mut(start);
        set(own, self.column[supertype as usize]);
        let above = self.row[supertype as usize];
        if above != NONE {
            let from = above as usize * self.width;
            for (word, &more) in own.iter_mut().zip(&done[from..from + self.width]) {
                *word |= more;
            }
        }
    }

    fn mark_declaring(&mut self) {
        for (symbol, group) in self.names.groups().enumerate() {
            if group.len() <= self.width {
                continue;
            }
            let mut bits = vec![0; self.width];
            for entry in group.iter().filter(|entry| self.is_attribute(entry)) {
                set(&mut bits, self.column[entry.scope as usize]);
            }
            self.declaring.insert(symbol as u32, bits);
        }
    }

    fn is_attribute(&self, entry: &Entry) -> bool {
        matches!(self.file.kind(entry.value), kind::ATTRIBUTE | kind::DERIVED)
    }

    /// The attributes of proper ancestors that are spelled so, each declaration once.
    pub fn lookup(&self, entity: u32, symbol: u32) -> Inherited {
        let row = self.row[entity as usize];
        if row == NONE {
            return Inherited::None;
        }
        let start = row as usize * self.width;
        let ancestors = &self.rows[start..start + self.width];
        let group = self.names.group(symbol);
        if group.len() <= self.width {
            return one(group
                .iter()
                .filter(|entry| self.is_attribute(entry) && has(ancestors, self.column[entry.scope as usize]))
                .map(|entry| entry.value));
        }
        let Some(declaring) = self.declaring.get(&symbol) else { return Inherited::None };
        one(common(ancestors, declaring).filter_map(|column| self.names.find(symbol, self.entities[column as usize])))
    }
}

fn one(mut attributes: impl Iterator<Item = u32>) -> Inherited {
    match (attributes.next(), attributes.next()) {
        (None, _) => Inherited::None,
        (Some(attribute), None) => Inherited::One(attribute),
        (Some(_), Some(_)) => Inherited::Several,
    }
}

fn set(bits: &mut [u64], at: u32) {
    bits[at as usize / 64] |= 1 << (at % 64);
}

fn has(bits: &[u64], at: u32) -> bool {
    // A type's labels have no column.
    bits.get(at as usize / 64).is_some_and(|word| word >> (at % 64) & 1 == 1)
}

/// The places of the bits that both have.
fn common<'a>(left: &'a [u64], right: &'a [u64]) -> impl Iterator<Item = u32> + 'a {
    left.iter().zip(right).enumerate().flat_map(|(at, (left, right))| {
        let mut word = left & right;
        std::iter::from_fn(move || {
            let bit = (word != 0).then(|| word.trailing_zeros())?;
            word &= word - 1;
            Some(at as u32 * 64 + bit)
        })
    })
}
