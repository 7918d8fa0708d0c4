//! The proved declared types, the proved typing of constants and their proved answers, on files whose names the reference
//! binds.

use compare::cases;
use compare::random::{self, Rng, ANSWER_KINDS};
use proved::{codes, declared_types, evaluate_constants, type_constants, AnswerColumns, Nodes, Rows, Text};
use reference::evaluation::{answers, Answers};
use reference::kinds::{check, underlying_types, Underlying};
use reference::outline::Outline;
use reference::parser::{kind, read};
use reference::terminals::classify;
use reference::{names, symbols, tokens, AnswerRow, Fault, File, MAX_STRING};

const FILES: u64 = 50_000;

/// What a column holds before a call, by entry; no number of a kind, a type or a row of these files.
fn before(i: usize) -> u32 {
    0xdead_0000 ^ i as u32
}

fn column(length: usize) -> Vec<u32> {
    (0..length).map(before).collect()
}

/// What a row holds before a call; no row of an answer.
fn row_before(i: usize) -> AnswerRow {
    AnswerRow { kind: 0x80 | i as u8, number: !(i as i64) << 32, length: 0x80 | i as u32 & 0x7f }
}

/// What a byte of the room holds before a call; not 0.
fn byte_before(i: usize) -> u8 {
    0x80 | i as u8
}

fn room_before(length: usize) -> Vec<u8> {
    (0..length).map(byte_before).collect()
}

/// Three columns of rows.
struct Columns {
    kinds: Vec<u8>,
    numbers: Vec<i64>,
    lengths: Vec<u8>,
}

impl Columns {
    fn new(length: usize) -> Columns {
        let rows = (0..length).map(row_before);
        Columns {
            kinds: rows.clone().map(|row| row.kind).collect(),
            numbers: rows.clone().map(|row| row.number).collect(),
            lengths: rows.map(|row| row.length as u8).collect(),
        }
    }

    /// All of them, as far as given for each.
    fn lent(&mut self, lengths: [usize; 3]) -> Rows<'_> {
        Rows {
            kinds: &mut self.kinds[..lengths[0]],
            numbers: &mut self.numbers[..lengths[1]],
            lengths: &mut self.lengths[..lengths[2]],
        }
    }

    fn row(&self, i: usize) -> AnswerRow {
        AnswerRow { kind: self.kinds[i], number: self.numbers[i], length: self.lengths[i].into() }
    }

    fn rows(&self) -> Vec<AnswerRow> {
        (0..self.kinds.len()).map(|i| self.row(i)).collect()
    }

    /// Whether nothing is changed from these entries on.
    fn kept_from(&self, lengths: [usize; 3]) -> bool {
        let kept = Columns::new(self.kinds.len());
        self.kinds[lengths[0]..] == kept.kinds[lengths[0]..]
            && self.numbers[lengths[1]..] == kept.numbers[lengths[1]..]
            && self.lengths[lengths[2]..] == kept.lengths[lengths[2]..]
    }
}

/// A file past its names: what the proved functions read, and what the reference makes of it.
struct Named {
    bytes: Vec<u8>,
    starts: Vec<u32>,
    lengths: Vec<u32>,
    terminals: Vec<u8>,
    kinds: Vec<u8>,
    tokens: Vec<u32>,
    sizes: Vec<u32>,
    bindings: Vec<u32>,
    type_order: Vec<u32>,
    constant_order: Vec<u32>,
    /// Of constants, types and items the number of what they are declared with; of other nodes none.
    declared: Vec<Option<u32>>,
    answers: Result<Answers, Fault>,
}

impl Named {
    fn nodes(&self) -> Nodes<'_> {
        let Named { terminals, kinds, tokens, sizes, bindings, .. } = self;
        Nodes { terminals, kinds, tokens, sizes, bindings }
    }

    fn text(&self) -> Text<'_> {
        Text { bytes: &self.bytes, starts: &self.starts, lengths: &self.lengths }
    }

    /// The column of declared types as it is to be, from one of so many entries.
    fn declared_column(&self, length: usize) -> Vec<u32> {
        let entry = |i: usize| self.declared.get(i).copied().flatten().unwrap_or(before(i));
        (0..length).map(entry).collect()
    }

    /// The column of rows by node as it is to be.
    fn row_column(&self, length: usize) -> Vec<u32> {
        let mut constants = 0;
        let mut entry = |i: usize| {
            let Some(&kind) = self.kinds.get(i) else { return before(i) };
            constants += u32::from(kind == kind::CONSTANT);
            constants - u32::from(kind == kind::CONSTANT)
        };
        (0..length).map(&mut entry).collect()
    }
}

/// An enumeration's number is so many more than its node.
const FIRST_ENUMERATION: u32 = 6;

/// What is declared at each node, by the numbers that the column has: 0 for what is not evaluated.
fn declared(file: &File, names: &names::Names) -> Vec<Option<u32>> {
    let (outline, underlying) = (file.outline, underlying_types(file, names));
    let enumeration = |declaration: u32| outline.declarations[declaration as usize].node + FIRST_ENUMERATION;
    let number = |node: usize, row: &reference::SyntaxRow| match row.kind {
        kind::ITEM => Some(enumeration(outline.owner[node])),
        kind::TYPE | kind::CONSTANT => Some(match underlying[outline.owner[node] as usize] {
            Underlying::NotEvaluated => 0,
            Underlying::Boolean => 1,
            Underlying::Integer => 2,
            Underlying::Logical => 3,
            Underlying::Binary => 4,
            Underlying::String => 5,
            Underlying::Enumeration(declaration) => enumeration(declaration),
        }),
        _ => None,
    };
    file.nodes.iter().enumerate().map(|(node, row)| number(node, row)).collect()
}

fn named(bytes: &[u8]) -> Option<Named> {
    let rows = tokens::read(bytes).ok()?;
    let terminals = classify(bytes, &rows);
    let nodes = read(&terminals).ok()?;
    let (outline, symbols) = (Outline::new(&nodes), symbols::intern(bytes, &rows, &terminals));
    let file = File::newest(bytes, &rows, &terminals, &nodes, &symbols, &outline);
    let names = names::bind(&file).ok()?;
    let node = |&declaration: &u32| outline.declarations[declaration as usize].node;
    Some(Named {
        bytes: bytes.to_vec(),
        starts: rows.iter().map(|row| row.start).collect(),
        lengths: rows.iter().map(|row| row.length).collect(),
        terminals: codes(bytes, rows.len()),
        kinds: nodes.iter().map(|node| node.kind).collect(),
        tokens: nodes.iter().map(|node| node.token).collect(),
        sizes: nodes.iter().map(|node| node.size).collect(),
        type_order: names.type_order.iter().map(node).collect(),
        constant_order: names.constant_order.iter().map(node).collect(),
        declared: declared(&file, &names),
        answers: check(&file, &names).map(|underlying| answers(&file, &names, &underlying)),
        bindings: names.bindings,
    })
}

/// Rooms of no byte, of too few for strings of so many, of just enough and of more.
fn rooms(needed: usize) -> Vec<usize> {
    let mut rooms = vec![0, needed / 2, needed.saturating_sub(1), needed, needed + 3];
    rooms.dedup();
    rooms
}

/// Holds the answers to the reference's, with columns that are just long enough or longer by so much and with rooms of all lengths.
fn hold_answers(file: &Named, declared: &[u32], order: &[u32], spare: usize) {
    let Ok(answers) = &file.answers else { return };
    rooms(answers.room.len()).into_iter().for_each(|room| hold_answers_in(file, declared, order, spare, room));
}

/// The same with one room. Where it is too short, neither the rows nor its bytes are told, but how many it takes.
fn hold_answers_in(file: &Named, declared: &[u32], order: &[u32], spare: usize, lent: usize) {
    let Ok(Answers { rows: wanted, room: strings }) = &file.answers else { return };
    let told = || format!("a room of {lent}: {}", file.bytes.escape_ascii());
    let nodes = file.kinds.len() + spare;
    let rows = wanted.len() + spare;
    let (mut row_of, mut answers, mut values) = (column(nodes), Columns::new(rows), Columns::new(nodes));
    let mut room = room_before(lent + 2);
    let columns = AnswerColumns {
        row_of: &mut row_of,
        answers: answers.lent([rows; 3]),
        values: values.lent([nodes; 3]),
        room: &mut room[..lent],
    };
    let needed = evaluate_constants(file.text(), file.nodes(), declared, order, columns);
    assert_eq!(needed, strings.len(), "{}", told());
    assert_eq!(row_of, file.row_column(nodes), "{}", told());
    assert!(values.kept_from([file.kinds.len(); 3]), "{}", told());
    assert_eq!(room[lent..], room_before(lent + 2)[lent..], "{}", told());
    if needed > lent {
        return;
    }
    let wanted: Vec<AnswerRow> = wanted.iter().copied().chain((wanted.len()..rows).map(row_before)).collect();
    assert_eq!(answers.rows(), wanted, "{}", told());
    assert_eq!(room[..needed], strings[..], "{}", told());
    assert!(room[needed..lent].iter().all(|&byte| byte == 0), "{}", told());
}

/// Holds all three functions to the reference, with columns that are just long enough or longer by so much.
fn hold_with(file: &Named, spare: usize) {
    let length = file.kinds.len() + spare;
    let mut declared = column(length);
    declared_types(file.nodes(), &file.type_order, &mut declared);
    assert_eq!(declared, file.declared_column(length), "{}", file.bytes.escape_ascii());
    let mut scratch = column(length);
    let typing = type_constants(file.nodes(), &declared, &mut scratch)
        .map_err(|refusal| Fault { reply: refusal.reply, token: file.tokens[refusal.number as usize] });
    assert_eq!(typing.err(), file.answers.as_ref().err().copied(), "{}", file.bytes.escape_ascii());
    assert_eq!(scratch[file.kinds.len()..], column(length)[file.kinds.len()..]);
    hold_answers(file, &declared, &file.constant_order, spare);
}

/// How many files had each reply, how many constants each kind of answer, and how many files strings of more than one byte.
#[derive(Debug, Default)]
struct Seen {
    replies: [u32; 16],
    answers: [u32; 20],
    rooms: u32,
}

impl Seen {
    /// Whether each kind of answer, `?` and the ends among them, was seen so often.
    fn answers_of_all_kinds(&self, often: u32) -> bool {
        ANSWER_KINDS.iter().all(|&kind| self.answers[kind] > often)
    }
}

/// The reply of a file past its names.
fn hold(text: &[u8], seen: &mut Seen) -> Option<u32> {
    let file = named(text)?;
    [0, 3].into_iter().for_each(|spare| hold_with(&file, spare));
    let reply = file.answers.as_ref().err().map_or(0, |fault| fault.reply);
    seen.replies[reply as usize] += 1;
    file.answers.iter().flat_map(|answers| &answers.rows).for_each(|row| seen.answers[usize::from(row.kind)] += 1);
    seen.rooms += u32::from(file.answers.as_ref().is_ok_and(|answers| answers.room.len() > 1));
    Some(reply)
}

fn hold_all(files: impl Iterator<Item = Vec<u8>>) -> Seen {
    let mut seen = Seen::default();
    files.for_each(|file| _ = hold(&file, &mut seen));
    seen
}

/// Words of which each may stand where another of its line does.
const EXCHANGED: [&str; 5] = [
    "1 TRUE FALSE UNKNOWN %101 ? 1.5 'a' PI",
    "* / DIV MOD AND",
    "+ - OR XOR",
    "< > <= >= <> = :<>: :=:",
    "INTEGER BOOLEAN LOGICAL BINARY NUMBER REAL STRING",
];

/// Two words of one line, where a number stands for all that begin as it does, with a digit or `%`.
fn alike(word: &str, other: &str) -> bool {
    let digit = |word: &str| word.starts_with(|first: char| first.is_ascii_digit());
    word.eq_ignore_ascii_case(other) || digit(word) && digit(other) || word.starts_with('%') && other.starts_with('%')
}

/// A file with well-bound names in which a few literals, operators and simple types are exchanged for others.
fn exchanged(seed: u64) -> Vec<u8> {
    let mut rng = Rng::new(seed);
    let file = random::well_typed(seed, rng.between(100, 1_500));
    let rows = tokens::read(&file).expect("tokens");
    let mut words: Vec<String> =
        rows.iter().map(|row| String::from_utf8_lossy(tokens::text(&file, row)).into_owned()).collect();
    for _ in 0..rng.between(1, 3) {
        let class: Vec<&str> = rng.pick(&EXCHANGED).split(' ').collect();
        let places: Vec<usize> =
            (0..words.len()).filter(|&i| class.iter().any(|word| alike(&words[i], word))).collect();
        if !places.is_empty() {
            words[*rng.pick(&places)] = rng.pick(&class).to_string();
        }
    }
    words.join(" ").into_bytes()
}

/// A well-typed file for two seeds of four, of a size as in `random::plan`.
fn mostly_well_typed(seed: u64) -> Vec<u8> {
    match seed % 4 {
        0 => random::file(seed),
        1 => exchanged(seed),
        _ => random::well_typed(seed, random::plan(seed).1),
    }
}

#[test]
fn random_files() {
    let seen = hold_all((0..FILES).map(mostly_well_typed));
    assert!(seen.replies[0] > 30_000 && seen.replies[14] > 1_000 && seen.replies[15] > 2_000, "{seen:?}");
    assert!(seen.answers_of_all_kinds(1_000) && seen.rooms > 5_000, "{seen:?}");
}

#[test]
fn files_with_words_exchanged() {
    let seen = hold_all((0..FILES / 2).map(exchanged));
    assert!(seen.replies[0] > 5_000 && seen.replies[14] > 1_500 && seen.replies[15] > 4_000, "{seen:?}");
    assert!(seen.answers_of_all_kinds(200) && seen.rooms > 1_000, "{seen:?}");
}

#[test]
fn the_corpus() {
    let seen = hold_all(cases::all().into_iter().map(|case| case.input));
    assert!(seen.replies[0] > 50 && seen.replies[14] > 10 && seen.replies[15] > 10, "{seen:?}");
    assert!(seen.answers_of_all_kinds(0) && seen.rooms > 10, "{seen:?}");
}

/// The kinds of operands: integer, logical, binary, string, items of two enumerations, and `?`.
const OPERANDS: [&str; 7] = ["1", "TRUE", "%1", "'a'", "low", "red", "?"];
/// Constants of the same kinds, two of them logical and two items of one enumeration; and with the ends 16 to 19.
const CONSTANTS: [&str; 14] =
    ["i", "l", "t", "b", "n", "e", "f", "g", "range", "joined", "long", "zero", "power", "unknown_one"];
const TYPES: [&str; 11] =
    ["INTEGER", "BOOLEAN", "LOGICAL", "BINARY", "STRING", "REAL", "level", "colour", "grade", "number_type", "any"];

/// The replies of a constant with this expression, one for each type that it may be declared with.
fn with_types(expression: &str) -> Vec<u32> {
    let (zeros, longest) = ("0".repeat(62), "x".repeat(MAX_STRING));
    let text = |declared: &str| {
        format!(
            "SCHEMA s; CONSTANT i : number_type := 1; l : LOGICAL := ?; t : BOOLEAN := TRUE; b : BINARY := %1; \
             e : level := low; f : grade := level.high; g : colour := red; range : INTEGER := 9223372036854775807 + i; \
             joined : BINARY := %1{zeros} + b; n : STRING := 'it''s'; long : STRING := '{longest}' + n; zero : INTEGER := i MOD 0; power : INTEGER := 2 ** (-i); \
             unknown_one : BOOLEAN := l; c : {declared} := {expression}; END_CONSTANT; \
             TYPE grade = level; END_TYPE; TYPE level = ENUMERATION OF (low, high); END_TYPE; \
             TYPE colour = ENUMERATION OF (red, green); END_TYPE; TYPE number_type = whole; END_TYPE; \
             TYPE whole = INTEGER; END_TYPE; TYPE any = SELECT (level, colour); END_TYPE; END_SCHEMA;"
        )
    };
    let mut seen = Seen::default();
    TYPES.iter().map(|declared| hold(text(declared).as_bytes(), &mut seen).expect(expression)).collect()
}

/// Whether the expression has a kind, and so fits a type.
fn has_kind(expression: &str) -> bool {
    with_types(expression).contains(&0)
}

/// Every operator with operands of every two kinds; how many of the pairs of `OPERANDS` it takes is counted by hand: two
/// integers or `?`; two binaries or strings too; two logicals or `?`; two of one kind or `?`.
#[test]
fn operators_with_operands_of_all_kinds() {
    for (operators, taken) in
        [("- * DIV MOD **", 4), ("+", 10), ("AND OR XOR", 4), ("< > <= >= <> = :<>: :=:", 19), ("/", 0)]
    {
        for operator in operators.split(' ') {
            let pairs = OPERANDS.iter().flat_map(|a| OPERANDS.iter().map(move |b| format!("{a} {operator} {b}")));
            assert_eq!(pairs.filter(|pair| has_kind(pair)).count(), taken, "{operator}");
            for a in OPERANDS.iter().chain(&CONSTANTS) {
                CONSTANTS.iter().for_each(|b| {
                    with_types(&format!("{a} {operator} {b}"));
                    with_types(&format!("{b} {operator} {a}"));
                });
            }
        }
    }
    for sign in ["+", "-", "NOT"] {
        assert_eq!(OPERANDS.iter().filter(|a| has_kind(&format!("{sign} {a}"))).count(), 2, "{sign}");
        CONSTANTS.iter().for_each(|a| assert_eq!(with_types(&format!("{sign} {a}")).len(), TYPES.len()));
    }
}

/// The item agrees with each end: with `?` any two do, 49; with another kind it or `?` at each end, 4 for each of 6.
#[test]
fn intervals_with_operands_of_all_kinds() {
    for (first, second) in [("<", "<"), ("<", "<="), ("<=", "<"), ("<=", "<=")] {
        let all =
            OPERANDS.iter().flat_map(|a| OPERANDS.iter().flat_map(move |b| OPERANDS.iter().map(move |c| [a, b, c])));
        let taken = all.filter(|[a, b, c]| has_kind(&format!("{{{a} {first} {b} {second} {c}}}"))).count();
        assert_eq!(taken, 73, "{first} {second}");
    }
}

/// What is not evaluated, and operands alone, which must fit the type.
#[test]
fn operands_alone() {
    for operand in ["1.5", "PI", "CONST_E", "(1.5 + 1)", "NOT 1.5", "{1 < PI < 2}", "'a' + PI"] {
        assert_eq!(with_types(operand), [14; TYPES.len()], "{operand}");
    }
    // Types in the order of `TYPES`.
    for (operand, replies) in [
        ("1", [0, 15, 15, 15, 15, 14, 15, 15, 15, 0, 14]),
        ("t", [15, 0, 0, 15, 15, 14, 15, 15, 15, 15, 14]),
        ("%1", [15, 15, 15, 0, 15, 14, 15, 15, 15, 15, 14]),
        ("'a'", [15, 15, 15, 15, 0, 14, 15, 15, 15, 15, 14]),
        ("n + long", [15, 15, 15, 15, 0, 14, 15, 15, 15, 15, 14]),
        ("f", [15, 15, 15, 15, 15, 14, 0, 15, 0, 15, 14]),
        ("colour.red", [15, 15, 15, 15, 15, 14, 15, 0, 15, 15, 14]),
        ("?", [0, 0, 0, 0, 0, 14, 0, 0, 0, 0, 14]),
    ] {
        assert_eq!(with_types(operand), replies, "{operand}");
    }
}

/// So many entries or, half of the time, fewer.
fn cut(rng: &mut Rng, length: usize) -> usize {
    if rng.one_in(2) {
        length
    } else {
        rng.below(length + 1)
    }
}

/// Any lengths of three columns.
fn lengths(rng: &mut Rng, most: usize) -> [usize; 3] {
    [cut(rng, most), cut(rng, most), cut(rng, most)]
}

/// Calls the functions on any columns: they end and write no entry past what is lent, and the first none of other nodes than
/// items, types and constants; the node of a fault is one of the nodes.
fn call_on_any(rng: &mut Rng, text: Text, nodes: Nodes, order: &[u32], most: usize) {
    let [typed, declares, numbered] = lengths(rng, most);
    let mut declared = column(declares + 2);
    declared_types(nodes, order, &mut declared[..declares]);
    for (i, &entry) in declared.iter().enumerate() {
        let written = i < declares && matches!(nodes.kinds.get(i), Some(&(kind::ITEM | kind::TYPE | kind::CONSTANT)));
        assert!(written || entry == before(i), "entry {i} of {declares}");
    }
    let declared = &declared[..declares];
    let mut scratch = column(typed + 2);
    let typing = type_constants(nodes, declared, &mut scratch[..typed]);
    assert!(typing.is_ok() || typing.is_err_and(|fault| (fault.number as usize) < nodes.kinds.len()));
    assert_eq!(scratch[typed..], column(typed + 2)[typed..]);
    let ([rows, by_node], size) = ([lengths(rng, most), lengths(rng, most)], cut(rng, 4 * most));
    // Where there is no node, as many rows are looked at as the first entry says.
    let kept: Vec<u32> = (70_000..).take(numbered + 2).collect();
    let mut row_of = kept.clone();
    let (mut answers, mut values, mut room) = (Columns::new(most + 2), Columns::new(most + 2), room_before(size + 2));
    let columns = AnswerColumns {
        row_of: &mut row_of[..numbered],
        answers: answers.lent(rows),
        values: values.lent(by_node),
        room: &mut room[..size],
    };
    evaluate_constants(text, nodes, declared, order, columns);
    assert_eq!(row_of[numbered..], kept[numbered..]);
    assert_eq!(room[size..], room_before(size + 2)[size..]);
    assert!(answers.kept_from(rows) && values.kept_from(by_node));
}

#[test]
fn columns_that_are_too_short() {
    for seed in 0..FILES / 10 {
        let Some(file) = named(&exchanged(seed)) else { continue };
        let mut rng = Rng::new(seed);
        let text = Text {
            bytes: &file.bytes[..cut(&mut rng, file.bytes.len())],
            starts: &file.starts[..cut(&mut rng, file.starts.len())],
            lengths: &file.lengths[..cut(&mut rng, file.lengths.len())],
        };
        let nodes = Nodes {
            terminals: &file.terminals[..cut(&mut rng, file.terminals.len())],
            kinds: &file.kinds[..cut(&mut rng, file.kinds.len())],
            tokens: &file.tokens[..cut(&mut rng, file.tokens.len())],
            sizes: &file.sizes[..cut(&mut rng, file.sizes.len())],
            bindings: &file.bindings[..cut(&mut rng, file.bindings.len())],
        };
        let order = &file.constant_order[..cut(&mut rng, file.constant_order.len())];
        call_on_any(&mut rng, text, nodes, order, file.kinds.len());
    }
    let text = Text { bytes: &[], starts: &[], lengths: &[] };
    let nodes = Nodes { terminals: &[], kinds: &[], tokens: &[], sizes: &[], bindings: &[] };
    call_on_any(&mut Rng::new(0), text, nodes, &[], 0);
}

#[test]
fn columns_of_any_numbers() {
    for seed in 0..FILES / 5 {
        let mut rng = Rng::new(seed);
        let bytes = |rng: &mut Rng| -> Vec<u8> { (0..rng.below(60)).map(|_| rng.below(200) as u8).collect() };
        let words = |rng: &mut Rng| -> Vec<u32> {
            (0..rng.below(60)).map(|_| if rng.one_in(9) { u32::MAX } else { rng.below(62) as u32 }).collect()
        };
        let kinds: Vec<u8> = (0..rng.below(60)).map(|_| rng.below(28) as u8).collect();
        let (terminals, tokens, sizes) = (bytes(&mut rng), words(&mut rng), words(&mut rng));
        let (bindings, order) = (words(&mut rng), words(&mut rng));
        let (source, starts, lengths) = (bytes(&mut rng), words(&mut rng), words(&mut rng));
        let text = Text { bytes: &source, starts: &starts, lengths: &lengths };
        let nodes = Nodes { terminals: &terminals, kinds: &kinds, tokens: &tokens, sizes: &sizes, bindings: &bindings };
        call_on_any(&mut rng, text, nodes, &order, 64);
    }
}

/// The declarations in another order in which each constant stands after those that it names, schemas mixed.
fn mixed_order(file: &Named, rng: &mut Rng) -> Vec<u32> {
    let mut left = file.constant_order.clone();
    (1..left.len()).for_each(|i| left.swap(i, rng.below(i + 1)));
    let (mut order, mut placed) = (Vec::new(), vec![false; file.kinds.len()]);
    let mut stack: Vec<u32> = Vec::new();
    while let Some(node) = stack.pop().or_else(|| left.pop()) {
        let within = node + 1 - file.sizes[node as usize]..node;
        let named = within.filter_map(|n| file.bindings[n as usize].checked_sub(1));
        let open = |&d: &u32| file.kinds[d as usize] == kind::CONSTANT && !placed[d as usize];
        let before: Vec<u32> = named.filter(|_| file.kinds[node as usize] == kind::CONSTANT).filter(open).collect();
        if placed[node as usize] {
            continue;
        }
        if before.is_empty() {
            placed[node as usize] = true;
            order.push(node);
        } else {
            stack.push(node);
            stack.extend(before);
        }
    }
    order
}

/// So many constants has a schema of many, by its number.
fn constants_of(schema: usize) -> usize {
    (schema % 8).max(1)
}

/// Schemas with up to seven constants of the same names and of one type, of which each is the next one and, added to it, the literal of
/// the schema's number, and the last one the literal alone.
fn many_schemas(schemas: usize, declared: &str, literal: fn(usize) -> String) -> Vec<u8> {
    let schema = |i: usize| {
        let (number, last) = (literal(i), constants_of(i));
        let constants: String = (1..last).map(|j| format!("c{j} : {declared} := c{} + {number};", j + 1)).collect();
        format!("SCHEMA s{i}; CONSTANT {constants} c{last} : {declared} := {number}; END_CONSTANT; END_SCHEMA;")
    };
    (0..schemas).map(schema).collect::<String>().into_bytes()
}

/// Holds all three functions to the reference, with the constants in other orders too.
fn hold_in_all_orders(file: &Named) {
    [0, 3].into_iter().for_each(|spare| hold_with(file, spare));
    let mut declared = column(file.kinds.len());
    declared_types(file.nodes(), &file.type_order, &mut declared);
    (0..20).for_each(|seed| hold_answers(file, &declared, &mixed_order(file, &mut Rng::new(seed)), 0));
}

/// The last constant of schema i is i, the one before it i twice, and so on.
#[test]
fn files_of_many_schemas() {
    for schemas in [1, 2, 9, 100, 300] {
        let file = named(&many_schemas(schemas, "INTEGER", |i| i.to_string())).expect("names");
        let often = || (0..schemas).flat_map(|i| (1..=constants_of(i)).rev().map(move |often| (i, often)));
        let rows = often().map(|(i, often)| AnswerRow { kind: 1, number: (i * often) as i64, length: 0 });
        assert_eq!(file.answers.as_ref().expect("answers").rows, rows.collect::<Vec<_>>());
        hold_in_all_orders(&file);
        let file = named(&many_schemas(schemas, "STRING", |i| format!("'{i}'"))).expect("names");
        let strings: String = often().map(|(i, often)| i.to_string().repeat(often)).collect();
        assert_eq!(file.answers.as_ref().expect("answers").room, strings.as_bytes());
        hold_in_all_orders(&file);
    }
}

/// A room of more bytes than a file may have: so many constants are one string of 255 bytes.
#[test]
fn a_large_room() {
    let (constants, longest) = (1_500, "x".repeat(MAX_STRING));
    let others: String = (1..constants).map(|i| format!("c{i} : STRING := c;")).collect();
    let text = format!("SCHEMA s; CONSTANT {others} c : STRING := '{longest}'; END_CONSTANT; END_SCHEMA;");
    let file = named(text.as_bytes()).expect("names");
    assert_eq!(file.answers.as_ref().expect("answers").room, longest.repeat(constants).as_bytes());
    hold_with(&file, 0);
}

#[test]
fn constants_in_other_orders() {
    let mut moved = 0;
    for seed in 0..FILES / 10 {
        let Some(file) = named(&mostly_well_typed(seed * 4 + 2)) else { continue };
        let order = mixed_order(&file, &mut Rng::new(seed));
        moved += u32::from(order != file.constant_order);
        let mut declared = column(file.kinds.len());
        declared_types(file.nodes(), &file.type_order, &mut declared);
        hold_answers(&file, &declared, &order, 0);
    }
    assert!(moved > 3_000, "{moved} of the orders are others");
}
