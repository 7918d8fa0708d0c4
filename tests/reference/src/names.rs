//! Scopes, bindings and cycles: replies 9 to 13, in the paper's order of stages.

use crate::graph::Graph;
use crate::inheritance::{Inheritance, Inherited};
use crate::outline::{Declaration, Sort};
use crate::parser::{kind, role};
use crate::symbols::{Entry, Index};
use crate::{Fault, File};

const DECLARED_TWICE: u32 = 9;
const NOT_FOUND: u32 = 10;
const WRONG_SORT: u32 = 11;
const TWO_MEANINGS: u32 = 12;
const CYCLE: u32 = 13;

/// What the names of a file mean.
#[derive(Debug)]
pub struct Names {
    /// Of each node, the node number of the declaration that it means plus one, else 0.
    pub bindings: Vec<u32>,
    /// All declarations, each type after those that it renames or selects, each entity after its supertypes.
    pub type_order: Vec<u32>,
    /// All declarations, each constant after those that its expression names.
    pub constant_order: Vec<u32>,
}

pub fn bind(file: &File) -> Result<Names, Fault> {
    let scopes = Scopes::new(file);
    scopes.duplicates()?;
    let mut bindings = vec![0; file.nodes.len()];
    scopes.bind_types(&mut bindings)?;
    let type_order = type_order(file, &bindings)?;
    scopes.bind_expressions(&mut bindings, &type_order)?;
    let constant_order = constant_order(file, &bindings)?;
    Ok(Names { bindings, type_order, constant_order })
}

/// What each symbol names in each scope.
struct Scopes<'a> {
    file: &'a File<'a>,
    /// Constants, types and entities: the scope is the schema, the value the declaration.
    declared: Index,
    /// Attributes and labels: the scope is the declaration, the value the node.
    names: Index,
    /// Enumeration items: the scope is the declaration, the value the node.
    items: Index,
}

impl<'a> Scopes<'a> {
    fn new(file: &'a File<'a>) -> Self {
        let outline = file.outline;
        let numbered = || (0..).zip(&outline.declarations);
        let declared = index(file, numbered().map(|(number, it)| (it.node, Entry { scope: it.schema, value: number })));
        let names = index(
            file,
            numbered()
                .flat_map(|(scope, it)| outline.names(it).iter().map(move |&value| (value, Entry { scope, value }))),
        );
        let items = index(
            file,
            numbered()
                .flat_map(|(scope, it)| outline.items(it).iter().map(move |&value| (value, Entry { scope, value }))),
        );
        Scopes { file, declared, names, items }
    }

    /// The first name in the text that is declared a second time in its scope.
    fn duplicates(&self) -> Result<(), Fault> {
        let outline = self.file.outline;
        let schemas = outline.schemas.iter().map(|schema| (schema.node, Entry { scope: 0, value: schema.node }));
        let schemas = index(self.file, schemas);
        let supertypes = (0..).zip(&outline.declarations).flat_map(|(scope, it)| {
            let supertype = |node: &&u32| self.file.nodes[**node as usize].role == role::SUPERTYPE;
            let names = outline.type_names(it).iter().take_while(supertype);
            names.map(move |&value| (value, Entry { scope, value }))
        });
        let supertypes = index(self.file, supertypes);
        let token = |node: u32| self.file.nodes[node as usize].token;
        let declaration = |number: u32| token(outline.declarations[number as usize].node);
        let first = repeats(&schemas, token)
            .chain(repeats(&self.declared, declaration))
            .chain(repeats(&self.names, token))
            .chain(repeats(&self.items, token))
            .chain(repeats(&supertypes, token))
            .min();
        first.map_or(Ok(()), |token| Err(Fault { reply: DECLARED_TWICE, token }))
    }

    /// Names of types and supertypes; taken in text order, so the first fault has the smallest place.
    fn bind_types(&self, bindings: &mut [u32]) -> Result<(), Fault> {
        let outline = self.file.outline;
        for declaration in &outline.declarations {
            for &node in outline.type_names(declaration) {
                let found = self.declared.find(self.file.symbol(node), declaration.schema);
                let Some(found) = found else { return Err(self.file.fault(NOT_FOUND, node)) };
                let found = &outline.declarations[found as usize];
                if !fits(self.file.nodes[node as usize].role, found.sort) {
                    return Err(self.file.fault(WRONG_SORT, node));
                }
                bindings[node as usize] = found.node + 1;
            }
        }
        Ok(())
    }

    /// Names in expressions, and own names spelled as inherited attributes. The first declaration that has a fault has
    /// the one with the smallest place.
    fn bind_expressions(&self, bindings: &mut [u32], type_order: &[u32]) -> Result<(), Fault> {
        let inheritance = Inheritance::new(self.file, &self.names, bindings, type_order);
        for (number, declaration) in (0..).zip(&self.file.outline.declarations) {
            let clash = self.clash(&inheritance, number, declaration);
            let unbound = self.bind_uses(&inheritance, number, declaration, bindings);
            let first = clash.into_iter().chain(unbound).min_by_key(|fault| fault.token);
            first.map_or(Ok(()), Err)?;
        }
        Ok(())
    }

    /// The first own attribute or label that is spelled as an inherited attribute.
    fn clash(&self, inheritance: &Inheritance, number: u32, declaration: &Declaration) -> Option<Fault> {
        let mut names = self.file.outline.names(declaration).iter();
        let clashing =
            names.find(|&&name| !matches!(inheritance.lookup(number, self.file.symbol(name)), Inherited::None));
        clashing.map(|&name| self.file.fault(TWO_MEANINGS, name))
    }

    /// Binds the uses in a declaration's expressions up to the first fault.
    fn bind_uses(
        &self,
        inheritance: &Inheritance,
        number: u32,
        declaration: &Declaration,
        bindings: &mut [u32],
    ) -> Option<Fault> {
        for &node in self.file.outline.uses(declaration) {
            let meaning = match self.file.kind(node) {
                kind::SELF if declaration.sort == Sort::Constant => Err(self.file.fault(WRONG_SORT, node)),
                kind::SELF => continue,
                kind::QUALIFIED_ITEM => self.qualified_item(node, declaration),
                _ => self
                    .meaning(inheritance, self.file.symbol(node), number, declaration)
                    .map_err(|reply| self.file.fault(reply, node)),
            };
            match meaning {
                Ok(meaning) => bindings[node as usize] = meaning + 1,
                Err(fault) => return Some(fault),
            }
        }
        None
    }

    /// The item that a `type.item` means. The type's name is the token two before the item.
    fn qualified_item(&self, node: u32, declaration: &Declaration) -> Result<u32, Fault> {
        let outline = self.file.outline;
        let token = self.file.nodes[node as usize].token - 2;
        let found = self.declared.find(self.file.symbols.of_token(token), declaration.schema);
        let Some(found) = found else { return Err(Fault { reply: NOT_FOUND, token }) };
        if outline.items(&outline.declarations[found as usize]).is_empty() {
            return Err(Fault { reply: WRONG_SORT, token });
        }
        let item = self.items.find(self.file.symbol(node), found);
        item.ok_or_else(|| self.file.fault(NOT_FOUND, node))
    }

    /// The node that a name in an expression means, or the reply: the nearest scope that has the name decides.
    fn meaning(
        &self,
        inheritance: &Inheritance,
        symbol: u32,
        number: u32,
        declaration: &Declaration,
    ) -> Result<u32, u32> {
        if let Some(own) = self.names.find(symbol, number) {
            let label = self.file.kind(own) == kind::RULE;
            return if label { Err(WRONG_SORT) } else { Ok(own) };
        }
        match inheritance.lookup(number, symbol) {
            Inherited::One(attribute) => return Ok(attribute),
            Inherited::Several => return Err(TWO_MEANINGS),
            Inherited::None => {}
        }
        let outline = self.file.outline;
        if let Some(found) = self.declared.find(symbol, declaration.schema) {
            let found = &outline.declarations[found as usize];
            return if found.sort == Sort::Constant { Ok(found.node) } else { Err(WRONG_SORT) };
        }
        let schema = &outline.schemas[declaration.schema as usize];
        match self.items.within(symbol, schema.declarations.clone()) {
            [] => Err(NOT_FOUND),
            [item] => Ok(item.value),
            _ => Err(TWO_MEANINGS),
        }
    }
}

/// Indexes entries by the symbols of the given nodes.
fn index(file: &File, entries: impl Iterator<Item = (u32, Entry)> + Clone) -> Index {
    Index::new(file.symbols.count(), entries.map(|(node, entry)| (file.symbol(node), entry)))
}

/// The tokens of all entries that repeat the entry before them in scope and symbol.
fn repeats<'a>(index: &'a Index, token: impl Fn(u32) -> u32 + 'a) -> impl Iterator<Item = u32> + 'a {
    index
        .groups()
        .flat_map(|group| group.windows(2))
        .filter(|pair| pair[0].scope == pair[1].scope)
        .map(move |pair| token(pair[1].value))
}

/// Whether a name of this role may mean a declaration of this sort.
fn fits(role: u8, sort: Sort) -> bool {
    match role {
        role::RENAMED_TYPE => sort == Sort::Type,
        role::SUPERTYPE => sort == Sort::Entity,
        _ => sort != Sort::Constant,
    }
}

/// Renamings and select lists together with supertypes: no supertype leads back to a type, so the cycles stay apart.
fn type_order(file: &File, bindings: &[u32]) -> Result<Vec<u32>, Fault> {
    let outline = file.outline;
    let depends =
        |node: u32| matches!(file.nodes[node as usize].role, role::RENAMED_TYPE | role::SELECT_NAME | role::SUPERTYPE);
    order(file, |declaration| {
        let names = outline.type_names(declaration).iter().filter(move |&&node| depends(node));
        names.map(|&node| outline.owner[bindings[node as usize] as usize - 1])
    })
}

fn constant_order(file: &File, bindings: &[u32]) -> Result<Vec<u32>, Fault> {
    let outline = file.outline;
    order(file, |declaration| {
        let uses: &[u32] = if declaration.sort == Sort::Constant { outline.uses(declaration) } else { &[] };
        let meanings = uses.iter().map(|&node| bindings[node as usize] - 1);
        let constants = meanings.filter(|&meaning| file.kind(meaning) == kind::CONSTANT);
        constants.map(|meaning| outline.owner[meaning as usize])
    })
}

/// Declarations stand in text order, so the smallest on a cycle is the first in the text.
fn order<'a, Targets: Iterator<Item = u32>>(
    file: &'a File,
    targets: impl Fn(&'a Declaration) -> Targets,
) -> Result<Vec<u32>, Fault> {
    let declarations = &file.outline.declarations;
    let mut graph = Graph::with_capacity(declarations.len());
    for declaration in declarations {
        graph.vertex(targets(declaration));
    }
    graph.order().map_err(|first| file.fault(CYCLE, declarations[first as usize].node))
}
