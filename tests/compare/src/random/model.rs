//! The declarations of one schema without their expressions: names, types, supertypes.
//!
//! Without slips a type, supertype or constant refers only to earlier ones of its list; the text has them in another order.

use super::source::{Slip, Source};
use std::collections::BTreeSet;

/// What a constant's expression must be of; an item's kind is the place of its enumeration among the types.
#[derive(Clone, Copy, PartialEq, Eq)]
pub enum Kind {
    Integer,
    Logical,
    Binary,
    String,
    Item(usize),
}

pub enum Under {
    Base(String),
    Enumeration(Vec<String>),
    Select(Vec<String>),
}

pub struct Type {
    pub name: String,
    pub under: Under,
    /// Nothing for a type whose values are not evaluated.
    pub kind: Option<Kind>,
    pub rules: Vec<Option<String>>,
}

pub struct Constant {
    pub name: String,
    pub base: String,
    pub kind: Kind,
}

pub struct Group {
    pub names: Vec<String>,
    pub optional: bool,
    pub base: String,
}

#[derive(Default)]
pub struct Entity {
    pub name: String,
    pub supertypes: Vec<String>,
    pub groups: Vec<Group>,
    pub derived: Vec<(String, String)>,
    pub rules: Vec<Option<String>>,
    /// The attributes of all supertypes: the place of the entity that declares it, and the name.
    pub inherited: BTreeSet<(usize, String)>,
}

impl Entity {
    pub fn attributes(&self) -> impl Iterator<Item = &String> {
        self.groups.iter().flat_map(|group| &group.names).chain(self.derived.iter().map(|(name, _)| name))
    }
}

#[derive(Default)]
pub struct Schema {
    pub constants: Vec<Constant>,
    pub types: Vec<Type>,
    pub entities: Vec<Entity>,
    /// The places of the enumerations among the types.
    pub enumerations: Vec<usize>,
}

impl Schema {
    /// The items of the enumeration in this place.
    pub fn items(&self, of: usize) -> &[String] {
        match &self.types[of].under {
            Under::Enumeration(items) => items,
            _ => unreachable!("an item's kind is the place of an enumeration"),
        }
    }
}

/// The names of a schema's constants, types and entities, chosen before anything refers to them.
struct Names {
    constants: Vec<String>,
    types: Vec<String>,
    entities: Vec<String>,
}

const SIMPLE: [&str; 7] = ["INTEGER", "BOOLEAN", "LOGICAL", "BINARY", "NUMBER", "REAL", "STRING"];
/// About how many bytes a constant, a type and an entity take.
const BYTES: [usize; 3] = [60, 80, 180];
/// How many constants, types and entities there are, in parts.
const SHARES: [[usize; 3]; 7] = [[4, 1, 1], [2, 2, 1], [1, 0, 0], [1, 1, 0], [2, 1, 0], [0, 1, 1], [1, 1, 3]];

/// A schema for about `size` bytes of text.
pub fn schema(source: &mut Source, size: usize) -> Schema {
    let names = names(source, size);
    let mut schema = Schema::default();
    for i in 0..names.types.len() {
        let declared = a_type(source, &names, &schema.types, i);
        if matches!(declared.under, Under::Enumeration(_)) {
            schema.enumerations.push(i);
        }
        schema.types.push(declared);
    }
    for i in 0..names.entities.len() {
        let declared = entity(source, &names, &schema.entities, i);
        schema.entities.push(declared);
    }
    schema.constants = names.constants.iter().map(|name| constant(source, &names, &schema.types, name)).collect();
    schema
}

fn names(source: &mut Source, size: usize) -> Names {
    // A clash needs entities.
    let entities = source.prone(Slip::Clash) && source.rng.one_in(2);
    let shares = if entities { [0, 1, 6] } else { *source.rng.pick(&SHARES) };
    let whole: usize = shares.iter().sum();
    let mut left = if source.rng.one_in(20) { 0 } else { size.max(1) };
    let (mut taken, mut all, mut lists) = (BTreeSet::new(), Vec::new(), [(); 3].map(|_| Vec::new()));
    while left > 0 {
        let name = source.declare(&mut taken, &all);
        let at = source.rng.below(whole);
        let sort = if at < shares[0] { 0 } else { 1 + usize::from(at >= shares[0] + shares[1]) };
        left = left.saturating_sub(BYTES[sort]);
        lists[sort].push(name.clone());
        all.push(name);
    }
    let [constants, types, entities] = lists;
    Names { constants, types, entities }
}

fn a_type(source: &mut Source, names: &Names, types: &[Type], i: usize) -> Type {
    let (under, kind) = match source.rng.below(8) {
        0 | 1 => simple(source),
        2 | 3 => renaming(source, names, types),
        4 if i > 0 || !names.entities.is_empty() => (Under::Select(select(source, names, i)), None),
        _ => (Under::Enumeration(items(source)), Some(Kind::Item(i))),
    };
    let rules =
        if source.rng.one_in(3) { labels(source, &mut BTreeSet::new(), &mut Vec::new(), &[]) } else { Vec::new() };
    Type { name: names.types[i].clone(), under, kind, rules }
}

fn simple(source: &mut Source) -> (Under, Option<Kind>) {
    let word = *source.rng.pick(&SIMPLE);
    (Under::Base(word.into()), simple_kind(word))
}

fn simple_kind(word: &str) -> Option<Kind> {
    match word {
        "INTEGER" => Some(Kind::Integer),
        "BOOLEAN" | "LOGICAL" => Some(Kind::Logical),
        "BINARY" => Some(Kind::Binary),
        "STRING" => Some(Kind::String),
        _ => None,
    }
}

fn renaming(source: &mut Source, names: &Names, types: &[Type]) -> (Under, Option<Kind>) {
    if let Some(name) = wrong_type(source, names) {
        return (Under::Base(name), None);
    }
    if types.is_empty() {
        return simple(source);
    }
    let renamed = source.earlier(types);
    (Under::Base(renamed.name.clone()), renamed.kind)
}

/// By a slip, a name that is no earlier type: any type (and so perhaps a cycle), or any name at all.
fn wrong_type(source: &mut Source, names: &Names) -> Option<String> {
    if !names.types.is_empty() && source.slip(Slip::TypeCycle) {
        return Some(source.rng.pick(&names.types).clone());
    }
    wrong_name(source, names)
}

fn wrong_name(source: &mut Source, names: &Names) -> Option<String> {
    if !source.slip(Slip::TypeName) {
        return None;
    }
    let list = *source.rng.pick(&[&names.constants, &names.types, &names.entities]);
    Some(if list.is_empty() { source.any_name() } else { source.rng.pick(list).clone() })
}

/// Earlier types and entities, of which there are some; one may stand there twice.
fn select(source: &mut Source, names: &Names, i: usize) -> Vec<String> {
    (0..source.rng.between(1, 4))
        .map(|_| match wrong_type(source, names) {
            Some(name) => name,
            None if i == 0 || !names.entities.is_empty() && source.rng.one_in(3) => {
                source.rng.pick(&names.entities).clone()
            }
            None => source.earlier(&names.types[..i]).clone(),
        })
        .collect()
}

fn items(source: &mut Source) -> Vec<String> {
    let (mut taken, mut own) = (BTreeSet::new(), Vec::new());
    for _ in 0..source.rng.between(1, 5) {
        let name = source.declare(&mut taken, &own);
        own.push(name);
    }
    own
}

/// Up to three rules, with or without a label.
fn labels(
    source: &mut Source,
    taken: &mut BTreeSet<String>,
    own: &mut Vec<String>,
    inherited: &[String],
) -> Vec<Option<String>> {
    (0..source.rng.between(1, 3))
        .map(|_| (!source.rng.one_in(4)).then(|| member(source, taken, own, inherited)))
        .collect()
}

/// The name of an attribute or label of an entity's own.
fn member(source: &mut Source, taken: &mut BTreeSet<String>, own: &mut Vec<String>, inherited: &[String]) -> String {
    let clash = !inherited.is_empty() && source.slip(Slip::Clash);
    let name = if clash { source.rng.pick(inherited).clone() } else { source.declare(taken, own) };
    own.push(name.clone());
    name
}

fn constant(source: &mut Source, names: &Names, types: &[Type], name: &str) -> Constant {
    let (base, kind) = if source.slip(Slip::Unevaluated) {
        (attribute_base(source, names), None)
    } else if let Some(name) = wrong_name(source, names) {
        (name, None)
    } else {
        evaluated(source, types)
    };
    Constant { name: name.into(), base, kind: kind.unwrap_or(Kind::Integer) }
}

/// An evaluated type, declared or simple, which is a string or not as is due.
fn evaluated(source: &mut Source, types: &[Type]) -> (String, Option<Kind>) {
    let string = source.string_is_due();
    for _ in 0..4 {
        if types.is_empty() || source.rng.one_in(4) {
            break;
        }
        let Type { name, kind, .. } = source.rng.pick(types);
        if kind.is_some_and(|kind| string == (kind == Kind::String)) {
            return (name.clone(), *kind);
        }
    }
    let word = if string { "STRING" } else { *source.rng.pick(&SIMPLE[..4]) };
    (word.into(), simple_kind(word))
}

/// The type of an attribute: a simple type, or any type or entity.
fn attribute_base(source: &mut Source, names: &Names) -> String {
    if let Some(name) = wrong_name(source, names) {
        return name;
    }
    let list = *source.rng.pick(&[&names.types, &names.entities]);
    if list.is_empty() || source.rng.one_in(2) {
        return source.rng.pick(&SIMPLE).to_string();
    }
    source.rng.pick(list).clone()
}

fn entity(source: &mut Source, names: &Names, entities: &[Entity], i: usize) -> Entity {
    let mut entity = Entity { name: names.entities[i].clone(), ..Entity::default() };
    entity.supertypes = supertypes(source, names, i);
    for (j, above) in entities.iter().enumerate().filter(|(_, above)| entity.supertypes.contains(&above.name)) {
        entity.inherited.extend(above.attributes().map(|name| (j, name.clone())));
        entity.inherited.extend(above.inherited.iter().cloned());
    }
    let inherited: Vec<String> = entity.inherited.iter().map(|(_, name)| name.clone()).collect();
    members(source, names, &mut entity, &inherited);
    entity
}

fn members(source: &mut Source, names: &Names, entity: &mut Entity, inherited: &[String]) {
    let (mut taken, mut own) = (inherited.iter().cloned().collect(), Vec::new());
    for _ in 0..source.rng.below(4) {
        let count = source.rng.between(1, 3);
        let names_of = (0..count).map(|_| member(source, &mut taken, &mut own, inherited)).collect();
        let (optional, base) = (source.rng.one_in(3), attribute_base(source, names));
        entity.groups.push(Group { names: names_of, optional, base });
    }
    if source.rng.one_in(3) {
        for _ in 0..source.rng.between(1, 2) {
            let name = member(source, &mut taken, &mut own, inherited);
            entity.derived.push((name, attribute_base(source, names)));
        }
    }
    if source.rng.one_in(2) {
        entity.rules = labels(source, &mut taken, &mut own, inherited);
    }
}

/// Some of the entities before this one; diamonds are common.
fn supertypes(source: &mut Source, names: &Names, i: usize) -> Vec<String> {
    let (mut taken, mut list) = (BTreeSet::new(), Vec::new());
    for _ in 0..source.rng.below(4) {
        let name = if source.slip(Slip::SuperCycle) {
            source.rng.pick(&names.entities).clone()
        } else if let Some(name) = wrong_name(source, names) {
            name
        } else if i > 0 {
            source.earlier(&names.entities[..i]).clone()
        } else {
            continue;
        };
        if taken.insert(name.clone()) || source.slip(Slip::Duplicate) {
            list.push(name);
        }
    }
    list
}
