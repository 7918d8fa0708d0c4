//! Random hierarchies of entities against a direct reading of the paper's scopes, over the model they are written from.

mod common;

use std::collections::BTreeSet;

use common::Random;
use reference::{check, Checked, NodeRow};

const NAMES: [&str; 5] = ["a", "b", "c", "d", "e"];

impl Random {
    /// At most so many different numbers below the bound.
    fn some(&mut self, bound: usize, most: usize) -> Vec<usize> {
        let count = self.below(most + 1);
        let mut chosen = Vec::new();
        for _ in 0..count {
            let one = self.below(bound);
            if !chosen.contains(&one) {
                chosen.push(one);
            }
        }
        chosen
    }
}

/// A name with the byte at which it stands.
type Placed = (usize, usize);

#[derive(Default)]
struct Entity {
    place: usize,
    supertypes: Vec<usize>,
    attributes: Vec<Placed>,
    labels: Vec<Placed>,
    uses: Vec<Placed>,
}

/// A schema as text and as what it holds.
#[derive(Default)]
struct Model {
    text: String,
    constants: BTreeSet<usize>,
    items: Vec<Vec<usize>>,
    entities: Vec<Entity>,
}

impl Model {
    fn new(random: &mut Random) -> Self {
        let mut model = Model { text: "SCHEMA s;".into(), ..Model::default() };
        model.constants = random.some(NAMES.len(), 1).into_iter().collect();
        for &constant in &model.constants {
            model.text += &format!("CONSTANT {}:INTEGER:=1;END_CONSTANT;", NAMES[constant]);
        }
        let count = 2 + random.below(9);
        let forward = random.below(4) == 0;
        for number in 0..count {
            let bound = if forward { count } else { number };
            model.entity(random, number, bound);
        }
        for number in 0..random.below(3) {
            let mut items = random.some(NAMES.len(), 2);
            items.push(NAMES.len());
            let names: Vec<&str> = items.iter().map(|&item| *NAMES.get(item).unwrap_or(&"other")).collect();
            model.text += &format!("TYPE t{number}=ENUMERATION OF({});END_TYPE;", names.join(","));
            model.items.push(items);
        }
        model.text += "END_SCHEMA;";
        model
    }

    fn name(&mut self, name: usize) -> Placed {
        let place = self.text.len();
        self.text += NAMES[name];
        (name, place)
    }

    fn entity(&mut self, random: &mut Random, number: usize, bound: usize) {
        let mut entity = Entity::default();
        self.text += "ENTITY ";
        entity.place = self.text.len();
        self.text += &format!("n{number}");
        if bound > 0 {
            entity.supertypes = random.some(bound, 3);
        }
        if !entity.supertypes.is_empty() {
            let names: Vec<String> = entity.supertypes.iter().map(|one| format!("n{one}")).collect();
            self.text += &format!(" SUBTYPE OF({})", names.join(","));
        }
        self.text += ";";
        let own = random.below(3);
        for name in random.some(NAMES.len(), own) {
            let attribute = self.name(name);
            entity.attributes.push(attribute);
            self.text += ":REAL;";
        }
        self.text += "WHERE TRUE;";
        if random.below(4) == 0 {
            let name = random.below(NAMES.len());
            if entity.attributes.iter().all(|attribute| attribute.0 != name) {
                let label = self.name(name);
                entity.labels.push(label);
                self.text += ":TRUE;";
            }
        }
        if random.below(2) == 0 {
            let used = self.name(random.below(NAMES.len()));
            entity.uses.push(used);
            self.text += ">0;";
        }
        self.text += "END_ENTITY;";
        self.entities.push(entity);
    }

    fn ancestors(&self, entity: usize) -> BTreeSet<usize> {
        let mut found = BTreeSet::new();
        let mut open = self.entities[entity].supertypes.clone();
        while let Some(one) = open.pop() {
            if found.insert(one) {
                open.extend(&self.entities[one].supertypes);
            }
        }
        found
    }

    /// The places of the attributes of proper ancestors that are spelled so.
    fn inherited(&self, entity: usize, name: usize) -> Vec<usize> {
        let attributes = self.ancestors(entity).into_iter().flat_map(|one| &self.entities[one].attributes);
        attributes.filter(|attribute| attribute.0 == name).map(|attribute| attribute.1).collect()
    }

    /// The place of the attribute that a name means (none if it means a constant or an item), or the reply.
    fn meaning(&self, entity: usize, name: usize) -> Result<Option<usize>, u32> {
        let own = &self.entities[entity];
        if own.labels.iter().any(|label| label.0 == name) {
            return Err(11);
        }
        if let Some(attribute) = own.attributes.iter().find(|attribute| attribute.0 == name) {
            return Ok(Some(attribute.1));
        }
        let items = self.items.iter().filter(|items| items.contains(&name)).count();
        match (&self.inherited(entity, name)[..], self.constants.contains(&name), items) {
            ([attribute], ..) => Ok(Some(*attribute)),
            ([], true, _) | ([], false, 1) => Ok(None),
            ([], false, 0) => Err(10),
            _ => Err(12),
        }
    }

    /// Whether each use is bound to the attribute that it means.
    fn agrees(&self, checked: &Checked) -> bool {
        let place = |node: &NodeRow| checked.tokens[node.token as usize].start as usize;
        let bound = |used: &Placed| {
            let node = checked.nodes.iter().find(|node| node.kind == 6 && place(node) == used.1)?;
            Some(&checked.nodes[node.binding as usize - 1])
        };
        self.entities.iter().enumerate().all(|(number, entity)| {
            entity.uses.iter().all(|used| match (self.meaning(number, used.0), bound(used)) {
                (Ok(Some(attribute)), Some(node)) => node.kind == 19 && place(node) == attribute,
                (Ok(None), Some(node)) => matches!(node.kind, 14 | 17),
                _ => false,
            })
        })
    }

    fn reply(&self) -> (u32, usize) {
        let all = 0..self.entities.len();
        let cyclic = all.clone().find(|&entity| self.ancestors(entity).contains(&entity));
        if let Some(entity) = cyclic {
            return (13, self.entities[entity].place);
        }
        let clashes = all.clone().flat_map(|entity| {
            let own = self.entities[entity].attributes.iter().chain(&self.entities[entity].labels);
            let clashing = own.filter(move |own| !self.inherited(entity, own.0).is_empty());
            clashing.map(|own| (own.1, 12))
        });
        let uses = all.flat_map(|entity| {
            let uses = self.entities[entity].uses.iter();
            uses.filter_map(move |used| Some((used.1, self.meaning(entity, used.0).err()?)))
        });
        clashes.chain(uses).min().map_or((0, 0), |(place, reply)| (reply, place))
    }
}

#[test]
fn hierarchies_are_read_as_the_paper_says() {
    let mut random = Random(0xD1B5_4A32_D192_ED03);
    let mut replies = [0; 16];
    for _ in 0..30_000 {
        let model = Model::new(&mut random);
        let checked = check(model.text.as_bytes(), [2_000, 2_000, 10, 0]);
        let (reply, place) = model.reply();
        assert_eq!((checked.report.reply, checked.report.number), (reply, place as u64), "{}", model.text);
        assert!(reply != 0 || model.agrees(&checked), "{}", model.text);
        replies[reply as usize] += 1;
    }
    for reply in [0, 10, 11, 12, 13] {
        assert!(replies[reply] > 300, "{replies:?}");
    }
}
