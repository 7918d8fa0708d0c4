//! The proved names of a file: bindings, refusals and orders, held to the reference's.

use compare::cases;
use compare::random::{self, Rng};
use proved::{codes, resolve, NameColumns, Nodes, Text};
use reference::outline::Outline;
use reference::parser::{kind, read, role, SyntaxRow};
use reference::terminals::classify;
use reference::{names, symbols, tokens, File, Refusal};

const FILES: u64 = 50_000;
const HIERARCHIES: u64 = 15_000;

/// What a column holds before a call, by entry.
fn before(i: usize) -> u32 {
    0xdead_0000 ^ i as u32
}

/// Columns in the order of `NameColumns`.
const COLUMNS: usize = 11;

const BUCKETS: usize = 4;
/// Of the columns for the orders of types and constants.
const ORDERS: std::ops::RangeInclusive<usize> = 8..=9;

fn lent(lengths: [usize; COLUMNS]) -> NameColumns {
    let narrow = |column: usize| (0..lengths[column]).map(before).collect();
    let wide = |column: usize| (0..lengths[column]).map(|i| u64::from(before(i)) << 32).collect();
    NameColumns {
        roles: (0..lengths[0]).map(|i| before(i) as u8).collect(),
        symbols: narrow(1),
        keys: wide(2),
        nodes: narrow(3),
        heads: narrow(BUCKETS),
        next: narrow(5),
        first: narrow(6),
        to: narrow(7),
        types: narrow(8),
        constants: narrow(9),
        scratch: narrow(10),
    }
}

/// A file that is parsed: its columns, and what the reference makes of its names.
struct Parsed {
    bytes: Vec<u8>,
    starts: Vec<u32>,
    lengths: Vec<u32>,
    terminals: Vec<u8>,
    nodes: Vec<SyntaxRow>,
    kinds: Vec<u8>,
    tokens: Vec<u32>,
    sizes: Vec<u32>,
    roles: Vec<u32>,
    bindings: Result<Vec<u32>, Refusal>,
}

fn parsed(bytes: &[u8]) -> Option<Parsed> {
    let rows = tokens::read(bytes).ok()?;
    let terminals = classify(bytes, &rows);
    let nodes = read(&terminals).ok()?;
    let (outline, symbols) = (Outline::new(&nodes), symbols::intern(bytes, &rows, &terminals));
    let file = File::newest(bytes, &rows, &terminals, &nodes, &symbols, &outline);
    let start = |token: u32| u64::from(rows[token as usize].start);
    let bindings = names::bind(&file)
        .map(|names| names.bindings)
        .map_err(|fault| Refusal { reply: fault.reply, number: start(fault.token) });
    Some(Parsed {
        bytes: bytes.to_vec(),
        starts: rows.iter().map(|row| row.start).collect(),
        lengths: rows.iter().map(|row| row.length).collect(),
        terminals: codes(bytes, rows.len()),
        kinds: nodes.iter().map(|node| node.kind).collect(),
        tokens: nodes.iter().map(|node| node.token).collect(),
        sizes: nodes.iter().map(|node| node.size).collect(),
        roles: nodes.iter().map(|node| node.role.into()).collect(),
        nodes,
        bindings,
    })
}

fn is_declaration(kind: u8) -> bool {
    [kind::CONSTANT, kind::TYPE, kind::ENTITY].contains(&kind)
}

impl Parsed {
    fn declarations(&self) -> Vec<u32> {
        (0..).zip(&self.kinds).filter(|(_, &kind)| is_declaration(kind)).map(|(node, _)| node).collect()
    }

    /// The entries of the dictionary: one for a schema, a declaration, an item, an attribute, a label and a supertype.
    fn entries(&self) -> usize {
        let entries = |node: &SyntaxRow| match node.kind {
            kind::SCHEMA | kind::CONSTANT | kind::TYPE | kind::ENTITY => 1,
            kind::ITEM | kind::ATTRIBUTE | kind::DERIVED => 1,
            kind::RULE => usize::from(node.role == role::LABELLED),
            kind::NAME => usize::from(node.role == role::SUPERTYPE),
            _ => 0,
        };
        self.nodes.iter().map(entries).sum()
    }

    /// The shortest columns that serve.
    fn room(&self) -> [usize; COLUMNS] {
        let (tokens, nodes, entries, vertices) =
            (self.starts.len(), self.kinds.len(), self.entries(), self.declarations().len());
        let scratch = (tokens + vertices + 1).max(6 * vertices);
        [nodes, tokens, entries, entries, 1, entries, vertices + 1, tokens.div_ceil(2), vertices, vertices, scratch]
    }

    fn resolved(&self, lent: &mut NameColumns) -> (Option<Result<(), Refusal>>, Vec<u32>) {
        let text = Text { bytes: &self.bytes, starts: &self.starts, lengths: &self.lengths };
        let Parsed { terminals, kinds, tokens, sizes, .. } = self;
        let mut bindings = self.roles.clone();
        let nodes = Nodes { terminals, kinds, tokens, sizes, bindings: &[] };
        let answer = resolve(text, nodes, &mut bindings, lent);
        (answer, bindings)
    }

    /// The declaration that a node is or lies in: the first at or after it.
    fn owner(&self, node: usize) -> u32 {
        (node..self.kinds.len()).find(|&n| is_declaration(self.kinds[n])).expect("an owner") as u32
    }

    /// Each declaration once, and each after those that it leads to.
    fn hold_order(&self, order: &[u32], arcs: impl Iterator<Item = (u32, u32)>) {
        let declarations = self.declarations();
        let mut place = vec![usize::MAX; self.kinds.len()];
        order[..declarations.len()].iter().enumerate().for_each(|(i, &node)| place[node as usize] = i);
        assert!(declarations.iter().all(|&node| place[node as usize] != usize::MAX), "{}", self.bytes.escape_ascii());
        for (from, to) in arcs {
            assert!(place[to as usize] < place[from as usize], "{from} {to} {}", self.bytes.escape_ascii());
        }
    }

    /// From the owners of bound nodes of these sorts to what they are bound to.
    fn arcs<'a>(
        &'a self,
        bindings: &'a [u32],
        leads: impl Fn(&SyntaxRow) -> bool + 'a,
        target: impl Fn(u8) -> bool + 'a,
    ) -> impl Iterator<Item = (u32, u32)> + 'a {
        let bound = (0..self.nodes.len()).filter(move |&n| leads(&self.nodes[n]) && bindings[n] != 0);
        let bound = bound.map(|n| (n, bindings[n] - 1)).filter(move |&(_, to)| target(self.kinds[to as usize]));
        bound.map(|(n, to)| (self.owner(n), to))
    }

    fn hold_orders(&self, bindings: &[u32], lent: &NameColumns) {
        let of_types = |node: &SyntaxRow| {
            node.kind == kind::NAME && [role::RENAMED_TYPE, role::SELECT_NAME, role::SUPERTYPE].contains(&node.role)
        };
        self.hold_order(&lent.types, self.arcs(bindings, of_types, |_| true));
        let uses = |node: &SyntaxRow| node.kind == kind::NAME && node.role == role::EXPRESSION_NAME;
        let named = self.arcs(bindings, uses, |kind| kind == kind::CONSTANT);
        self.hold_order(&lent.constants, named.filter(|&(from, _)| self.kinds[from as usize] == kind::CONSTANT));
    }
}

/// The reply to a file that is parsed; what the columns held before plays no part. Into columns of orders that have entries to spare, rows of
/// bits and chains fit, by which what is inherited is found then; else it is searched for.
fn hold(text: &[u8], buckets: usize, spare: usize) -> Option<u32> {
    let file = parsed(text)?;
    let mut room = file.room();
    room[BUCKETS] = buckets;
    ORDERS.for_each(|column| room[column] += spare);
    let mut columns = lent(room);
    let (answer, bindings) = file.resolved(&mut columns);
    let answer = answer.expect("room");
    match &file.bindings {
        Ok(wanted) => {
            assert_eq!(answer, Ok(()), "{}", text.escape_ascii());
            assert_eq!(&bindings, wanted, "{}", text.escape_ascii());
            file.hold_orders(wanted, &columns);
            Some(0)
        }
        Err(refusal) => {
            assert_eq!(answer, Err(*refusal), "{}", text.escape_ascii());
            assert_eq!(bindings, file.roles, "{}", text.escape_ascii());
            Some(refusal.reply)
        }
    }
}

fn hold_all(files: impl Iterator<Item = Vec<u8>>) -> [u32; 14] {
    let mut seen = [0; 14];
    for (i, file) in files.enumerate() {
        let buckets = if file.len() < 400 { 1 + i % 9 } else { 2_048 };
        let spare = if i % 2 == 0 { 0 } else { file.len() };
        hold(&file, buckets, spare).into_iter().for_each(|reply| seen[reply as usize] += 1);
    }
    seen
}

#[test]
fn names_of_random_files_are_the_reference_s() {
    let seen = hold_all((0..FILES).map(random::file));
    println!("{seen:?}");
    assert!([0, 9, 10, 11, 13].iter().all(|&reply: &usize| seen[reply] > 1_000), "{seen:?}");
}

#[test]
fn names_of_the_cases_are_the_reference_s() {
    let seen = hold_all(cases::all().into_iter().map(|case| case.input));
    assert!([0, 9, 10, 11, 12, 13].iter().all(|&reply: &usize| seen[reply] > 5), "{seen:?}");
}

/// An entity of a hierarchy: those above it, and the names of its attributes.
struct Entity {
    above: Vec<usize>,
    attributes: Vec<usize>,
}

/// So many numbers below a limit, each once.
fn some(rng: &mut Rng, count: usize, limit: usize) -> Vec<usize> {
    let mut numbers: Vec<usize> = (0..count).filter(|_| limit > 0).map(|_| rng.below(limit)).collect();
    numbers.sort_unstable();
    numbers.dedup();
    numbers
}

/// The name of an attribute that an entity has or inherits along one path, if the path comes to one.
fn attribute_of(rng: &mut Rng, entities: &[Entity], entity: usize) -> Option<usize> {
    let mut at = entity;
    while let Some(Entity { above, attributes }) = entities.get(at) {
        let up = above.get(rng.below(above.len().max(1)));
        match (up, attributes.get(rng.below(attributes.len().max(1)))) {
            (_, Some(&name)) if rng.one_in(3) || up.is_none() => return Some(name),
            (None, _) => return None,
            (Some(&next), _) => at = next,
        }
        if rng.one_in(40) {
            return None;
        }
    }
    None
}

/// Entities with supertypes, before them alone or anywhere; attributes with names of their own or one of a few; uses of what
/// they have and inherit, and now and then of any name.
fn hierarchy(seed: u64) -> Vec<u8> {
    let mut rng = Rng::new(seed);
    let many = rng.one_in(25); // More entities than a word has bits, of which few have a name in common.
    let count = if many { 30 + rng.below(70) } else { 2 + rng.below(12) };
    let (shared, alike, loose) = (2 + rng.below(12), if many { 100 } else { 2 }, rng.one_in(5));
    let entities: Vec<Entity> = (0..count)
        .map(|entity| {
            let (wide, named) = (rng.below(3), rng.below(3));
            let above = some(&mut rng, wide, if loose { count } else { entity });
            let own = some(&mut rng, named, 9);
            let attributes = own
                .into_iter()
                .map(|own| if rng.one_in(alike) { rng.below(shared) } else { 100 + 10 * entity + own })
                .collect();
            Entity { above, attributes }
        })
        .collect();
    let mut text = String::from("SCHEMA s;\nCONSTANT k : INTEGER := 1; END_CONSTANT;\n");
    for (number, entity) in entities.iter().enumerate() {
        let above: Vec<String> = entity.above.iter().map(|it| format!("e{it}")).collect();
        let list = if above.is_empty() { String::new() } else { format!(" SUBTYPE OF ({})", above.join(", ")) };
        text += &format!("ENTITY e{number}{list};\n");
        entity.attributes.iter().for_each(|name| text += &format!("a{name} : INTEGER;\n"));
        let used = |rng: &mut Rng| match attribute_of(rng, &entities, number) {
            Some(name) if !rng.one_in(60) => format!("a{name}"),
            _ if rng.one_in(20) => format!("a{}", rng.below(shared)),
            _ => "k".to_string(),
        };
        if rng.one_in(2) {
            text += &format!("DERIVE\nd{number} : INTEGER := {};\n", used(&mut rng));
        }
        if rng.one_in(2) {
            text += &format!("WHERE\nw{} : {} = {};\n", rng.below(3), used(&mut rng), used(&mut rng));
        }
        text += "END_ENTITY;\n";
    }
    (text + "END_SCHEMA;\n").into_bytes()
}

#[test]
fn names_of_hierarchies_are_the_reference_s() {
    let seen = hold_all((0..HIERARCHIES).map(hierarchy));
    println!("{seen:?}");
    assert!([0, 12, 13].iter().all(|&reply: &usize| seen[reply] > 2_000), "{seen:?}");
}

/// A column that is one entry too short is found out, and then the roles stand as they did.
#[test]
fn each_column_has_a_shortest_length() {
    for seed in 0..400 {
        let Some(file) = parsed(&hierarchy(seed)) else { continue };
        let room = file.room();
        assert!(file.resolved(&mut lent(room)).0.is_some(), "{}", file.bytes.escape_ascii());
        for column in (0..COLUMNS).filter(|&column| room[column] > 0) {
            let mut short = room;
            short[column] -= 1;
            let (answer, bindings) = file.resolved(&mut lent(short));
            assert_eq!(answer, None, "column {column}: {}", file.bytes.escape_ascii());
            assert_eq!(bindings, file.roles);
        }
    }
}
