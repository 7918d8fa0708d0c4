//! Times the proved functions against the reference's, side by side in one run; an argument chooses files by name.
//!
//! Columns are lent as long as needed and are not cleared between runs: the proved functions write over what they hold.
//! The reference allocates its rows anew in each run, which is part of its time.

use compare::hostile::{families, filled, Family};
use compare::random::{well_typed_with, Rng, Strings, LARGEST};
use compare::timing::{best_of, files_near};
use proved::{codes, declared_types, evaluate_constants, intern, parse, resolve, scan, terminals, type_constants};
use proved::{AnswerColumns, NameColumns, Nodes, Rows, Text};
use reference::names::Names;
use reference::outline::Outline;
use reference::terminals::classify;
use reference::{evaluation, kinds, names, parser};
use reference::{symbols, tokens, AnswerRow, File, TokenRow, MAX_BYTES};
use std::hint::black_box;

const RUNS: usize = 400;
/// Of the chains that interning keeps: as many as lent for the largest files.
const BUCKETS: usize = 16_384;

/// The best of many runs each, in nanoseconds.
fn best<A, B>(first: impl FnMut() -> A, second: impl FnMut() -> B) -> [f64; 2] {
    best_of(RUNS, first, second)
}

/// A file of the largest size of one byte, or a few, between a head and a foot.
fn uniform(head: &str, bytes: &str, foot: &str) -> Vec<u8> {
    filled(MAX_BYTES, [head, foot], |_| bytes.to_string())
}

fn files() -> Vec<(String, Vec<u8>)> {
    let large = |seed| (format!("well typed, seed {seed}"), well_typed_with(Strings::None, seed, LARGEST));
    let generated = (0..).map(large).filter(|(_, file)| file.len() > LARGEST / 4 * 3).take(6);
    let of_one_sort = [
        ("parentheses", uniform("", "(", "")),
        ("one remark", uniform("(*", "x", "*)")),
        ("one tail remark", uniform("--", "x", "")),
        ("one word", uniform("", "x", "")),
        ("one string", uniform("'", "x", "'")),
        ("one integer of zeros", uniform("", "0", "")),
        ("spaces", uniform("", " ", "")),
        ("short words", uniform("", "ab ", "")),
        ("short integers", uniform("", "12 ", "")),
        ("assignments", uniform("", ":=", "")),
    ];
    generated.chain(of_one_sort.map(|(name, file)| (name.to_string(), file))).collect()
}

/// What is timed of a file: the two ways to do one thing.
struct Timed {
    step: &'static str,
    proved: f64,
    reference: f64,
}

/// The token reader, the terminals of the tokens that it read, the symbols of the identifiers among them, and the parser.
fn steps(file: &[u8], rows: &[TokenRow]) -> [Timed; 4] {
    let column = || vec![0; rows.len()];
    let (mut kinds, mut starts, mut lengths) = (vec![0; rows.len()], column(), column());
    let (mut out, mut symbols, mut heads, mut next) = (vec![0; rows.len()], column(), vec![0; BUCKETS], column());
    assert_eq!(scan(file, &mut kinds, &mut starts, &mut lengths), Ok(rows.len()));
    let words = classify(file, rows);
    let file = black_box(file);
    let read = best(|| scan(file, &mut kinds, &mut starts, &mut lengths), || tokens::read(file));
    let classified = best(|| terminals(file, &kinds, &starts, &lengths, &mut out), || classify(file, rows));
    let interned = best(
        || intern(file, &starts, &lengths, &out, &mut symbols, &mut heads, &mut next),
        || symbols::intern(file, rows, &words),
    );
    let (mut nodes, mut names, mut sizes, mut roles) = (vec![0; rows.len()], column(), column(), column());
    let mut scratch = vec![0; rows.len()];
    let parsed = best(
        || parse(black_box(&out), &mut scratch, &mut nodes, &mut names, &mut sizes, &mut roles),
        || parser::read(black_box(&words)),
    );
    [("scan", read), ("terminals", classified), ("intern", interned), ("parse", parsed)]
        .map(|(step, [proved, reference])| Timed { step, proved, reference })
}

/// The proved functions from declared types to answers, and what the reference does in their place, with its outline, by which
/// it finds types and constants.
struct Kinds {
    proved: [f64; 3],
    reference: [f64; 3],
}

fn lent((kinds, numbers, lengths): &mut (Vec<u8>, Vec<i64>, Vec<u8>)) -> Rows<'_> {
    Rows { kinds, numbers, lengths }
}

/// The evaluation of constants, by the proved function and by the reference.
fn answers_of(file: &File, names: &Names, text: Text, nodes: Nodes, declared: &[u32], order: &[u32]) -> [f64; 2] {
    let rows = || (vec![0; nodes.kinds.len()], vec![0; nodes.kinds.len()], vec![0; nodes.kinds.len()]);
    let (mut answers, mut values, mut row_of) = (rows(), rows(), vec![0; nodes.kinds.len()]);
    let underlying = kinds::check(file, names).expect("kinds");
    let mut room = evaluation::answers(file, names, &underlying).room;
    best(
        || {
            let [answers, values] = [&mut answers, &mut values].map(lent);
            let lent = AnswerColumns { row_of: &mut row_of, answers, values, room: &mut room };
            evaluate_constants(black_box(text), nodes, declared, order, lent)
        },
        || evaluation::answers(black_box(file), names, &underlying),
    )
}

/// Of a file whose nodes and bindings are there.
fn kinds_of(bytes: &[u8]) -> Kinds {
    let tokens = tokens::read(bytes).expect("tokens");
    let terminals = classify(bytes, &tokens);
    let nodes = parser::read(&terminals).expect("nodes");
    let (outline, symbols) = (Outline::new(&nodes), symbols::intern(bytes, &tokens, &terminals));
    let file = File::newest(bytes, &tokens, &terminals, &nodes, &symbols, &outline);
    let names = names::bind(&file).expect("names");
    let node_kinds: Vec<u8> = nodes.iter().map(|node| node.kind).collect();
    let node_tokens: Vec<u32> = nodes.iter().map(|node| node.token).collect();
    let sizes: Vec<u32> = nodes.iter().map(|node| node.size).collect();
    let node = |&declaration: &u32| outline.declarations[declaration as usize].node;
    let types: Vec<u32> = names.type_order.iter().map(node).collect();
    let order: Vec<u32> = names.constant_order.iter().map(node).collect();
    let starts: Vec<u32> = tokens.iter().map(|token| token.start).collect();
    let lengths: Vec<u32> = tokens.iter().map(|token| token.length).collect();
    let codes = codes(bytes, tokens.len());
    let text = Text { bytes, starts: &starts, lengths: &lengths };
    let columns =
        Nodes { terminals: &codes, kinds: &node_kinds, tokens: &node_tokens, sizes: &sizes, bindings: &names.bindings };
    let (mut column, mut scratch) = (vec![0; nodes.len()], vec![0; nodes.len()]);
    let [declared, outlined] =
        best(|| declared_types(black_box(columns), &types, &mut column), || Outline::new(black_box(&nodes)));
    assert_eq!(type_constants(columns, &column, &mut scratch), Ok(()));
    let [typed, checked] = best(
        || type_constants(black_box(columns), &column, &mut scratch),
        || kinds::check(black_box(&file), &names).is_ok(),
    );
    let [evaluated, answered] = answers_of(&file, &names, text, columns, &column, &order);
    Kinds { proved: [declared, typed, evaluated], reference: [outlined, checked, answered] }
}

/// Nanoseconds for each byte of well-typed files of three sizes, without string constants and full of them, and of one of many schemas, and
/// the proved time as a part of the reference's, without its outline and with it.
fn print_kinds() {
    let [clock, _] = best(|| (), || ());
    for (strings, title) in [(Strings::None, ""), (Strings::Most, ", strings")] {
        println!("\nnanoseconds for each byte{title}");
        println!("   bytes  declared    typing   answers |   outline     check   answers |   ratio  with outline");
        for size in [1_024, 16_384, LARGEST] {
            files_near(strings, size, 0).take(6).for_each(|file| print_kinds_of(&file, clock));
        }
    }
    println!("\nnanoseconds for each byte, many schemas");
    let schema = |i: usize| format!("SCHEMA s{i};CONSTANT c:INTEGER:={i};END_CONSTANT;END_SCHEMA;");
    print_kinds_of(&filled(LARGEST, ["", ""], schema), clock);
}

/// Each call is timed by itself, and the clock's own time taken off.
fn print_kinds_of(file: &[u8], clock: f64) {
    let Kinds { proved, reference } = kinds_of(file);
    let [proved, reference] = [proved, reference].map(|times| times.map(|time| (time - clock).max(0.0)));
    let print = |times: [f64; 3]| times.map(|time| print!("{:10.3}", time / file.len() as f64));
    print!("{:8}", file.len());
    print(proved);
    print!(" |");
    print(reference);
    let [proved, whole] = [proved, reference].map(|times| times.iter().sum::<f64>());
    println!(" |{:8.2}{:14.2}", proved / (whole - reference[0]), proved / whole);
}

/// Columns for the names of a file with so many tokens.
fn name_columns(tokens: usize) -> NameColumns {
    let column = |entries: usize| vec![0u32; entries + 2];
    NameColumns {
        roles: vec![0; tokens],
        symbols: column(tokens),
        keys: vec![0; tokens / 2],
        nodes: column(tokens / 2),
        heads: vec![0; BUCKETS.min(tokens.next_power_of_two() / 2).max(1)],
        next: column(tokens / 2),
        first: column(tokens / 5),
        to: column(tokens / 2),
        types: column(tokens / 5),
        constants: column(tokens / 5),
        scratch: column(6 * (tokens / 5 + 1)),
    }
}

/// The names of a file, and what the reference does in their place: its symbols and bindings, and its outline.
fn names_of(bytes: &[u8]) -> [f64; 3] {
    let tokens = tokens::read(bytes).expect("tokens");
    let terminals = classify(bytes, &tokens);
    let nodes = parser::read(&terminals).expect("nodes");
    let kinds: Vec<u8> = nodes.iter().map(|node| node.kind).collect();
    let node_tokens: Vec<u32> = nodes.iter().map(|node| node.token).collect();
    let sizes: Vec<u32> = nodes.iter().map(|node| node.size).collect();
    let roles: Vec<u32> = nodes.iter().map(|node| node.role.into()).collect();
    let starts: Vec<u32> = tokens.iter().map(|token| token.start).collect();
    let lengths: Vec<u32> = tokens.iter().map(|token| token.length).collect();
    let codes = codes(bytes, tokens.len());
    let text = Text { bytes, starts: &starts, lengths: &lengths };
    let columns = Nodes { terminals: &codes, kinds: &kinds, tokens: &node_tokens, sizes: &sizes, bindings: &[] };
    let (mut bindings, mut lent) = (roles.clone(), name_columns(tokens.len()));
    let [resolved, bound] = best(
        || {
            bindings.copy_from_slice(&roles);
            resolve(black_box(text), columns, &mut bindings, &mut lent).expect("room").is_ok()
        },
        || {
            let symbols = symbols::intern(bytes, &tokens, &terminals);
            let outline = Outline::new(&nodes);
            let file = File::newest(bytes, &tokens, &terminals, &nodes, &symbols, &outline);
            names::bind(black_box(&file)).is_ok()
        },
    );
    let [_, outlined] = best(|| (), || Outline::new(black_box(&nodes)));
    [resolved, bound - outlined, bound]
}

/// Well-typed files of three sizes, in nanoseconds for each byte, with the ratio to the reference's symbols and bindings, and to
/// these with the outline, by which it finds declarations.
fn print_names() {
    println!("\nnames, nanoseconds for each byte");
    println!("   bytes    proved | reference  with outline |   ratio  with outline");
    for size in [1_024, 16_384, LARGEST] {
        for file in files_near(Strings::None, size, 0).take(6) {
            let [proved, bound, whole] = names_of(&file).map(|time| time / file.len() as f64);
            println!(
                "{:8}{proved:10.3} |{bound:10.3}{whole:14.3} |{:8.2}{:14.2}",
                file.len(),
                proved / bound,
                proved / whole
            );
        }
    }
}

/// Files of the largest size that are built to take long, as far as they are parsed, in microseconds.
fn print_hostile_names() {
    println!("\nnames of files built to take long, microseconds\n{:44}{:>10}{:>12}", "", "proved", "reference");
    for Family { name, file } in families() {
        let file = file(LARGEST);
        if reference::check(&file, [MAX_BYTES; 4]).report.reply != 4 {
            let [proved, _, reference] = names_of(&file).map(|time| time / 1e3);
            println!("{name:44}{proved:10.0}{reference:12.0}");
        }
    }
}

const STAGES: [&str; 6] = ["scan", "terminals", "parse", "names", "kinds", "answers"];

/// Nanoseconds for each byte of each stage, the proved one and the reference's in its place, its outline with the names.
fn stages(file: &[u8]) -> [[f64; 2]; STAGES.len()] {
    let rows = tokens::read(file).expect("tokens");
    let [scan, terminals, _, parse] = steps(file, &rows).map(|Timed { proved, reference, .. }| [proved, reference]);
    let [names, _, bound] = names_of(file);
    let Kinds { proved: [declared, typed, evaluated], reference: [_, checked, answered] } = kinds_of(file);
    let times = [scan, terminals, parse, [names, bound], [declared + typed, checked], [evaluated, answered]];
    times.map(|times| times.map(|time| time / file.len() as f64))
}

/// The stages of well-typed files of three sizes, the mean of a few files each, and all stages together.
fn print_stages() {
    println!(
        "\nstages, nanoseconds for each byte\n   bytes  {:12}{:>8}{:>10}{:>8}",
        "", "proved", "reference", "ratio"
    );
    for size in [1_024, 16_384, LARGEST] {
        let times: Vec<_> = files_near(Strings::None, size, 0).take(6).map(|file| stages(&file)).collect();
        let mean = |side: usize, stage: usize| times.iter().map(|of| of[stage][side]).sum::<f64>() / times.len() as f64;
        let print = |name: &str, [a, b]: [f64; 2]| println!("{size:8}  {name:12}{a:8.3}{b:10.3}{:8.2}", a / b);
        (0..STAGES.len()).for_each(|stage| print(STAGES[stage], [mean(0, stage), mean(1, stage)]));
        print("all", [0, 1].map(|side| (0..STAGES.len()).map(|stage| mean(side, stage)).sum()));
    }
}

type Operation = fn(i64, i64) -> AnswerRow;

/// A value, or what has none: a zero divisor, a negative power, or a result outside 64 bits.
fn row(value: Option<i64>, end: u8) -> AnswerRow {
    match value {
        Some(number) => AnswerRow { kind: 1, number, length: 0 },
        None => AnswerRow { kind: end, number: 0, length: 0 },
    }
}

/// The proved operations, each with its like in Rust's checked arithmetic.
const OPERATIONS: [(&str, Operation, Operation); 6] = [
    ("add", proved::add, |a, b| row(a.checked_add(b), 16)),
    ("subtract", proved::subtract, |a, b| row(a.checked_sub(b), 16)),
    ("multiply", proved::multiply, |a, b| row(a.checked_mul(b), 16)),
    ("div", proved::div, |a, b| row(a.checked_div_euclid(b), if b == 0 { 17 } else { 16 })),
    ("modulo", proved::modulo, |a, b| row((b != 0).then(|| a.wrapping_rem_euclid(b) * b.signum()), 17)),
    ("power", proved::power, |a, b| match (a, u32::try_from(b)) {
        _ if b < 0 => row(None, 18),
        (-1..=1, _) => row(Some(a.pow((b != 0) as u32 * (2 - (b & 1) as u32))), 16),
        (_, Ok(b)) => row(a.checked_pow(b), 16),
        _ => row(None, 16),
    }),
];

/// Nanoseconds for each call, on operands of every size and sign.
fn print_arithmetic() {
    let mut rng = Rng::new(0);
    let mut number = || (rng.draw() as i64) >> rng.below(64);
    let operands: Vec<(i64, i64)> = (0..4_096).map(|_| (number(), number())).collect();
    println!("\nnanoseconds for each call\n{:12}{:>8}{:>10}{:>8}", "", "proved", "plain", "ratio");
    for (name, proved, plain) in OPERATIONS {
        assert!(operands.iter().all(|&(a, b)| proved(a, b) == plain(a, b)), "{name}");
        let all = |operation: Operation| {
            let operation = black_box(operation);
            operands.iter().filter(|&&(a, b)| operation(a, b).kind == 1).count()
        };
        let [a, b] = best(|| all(proved), || all(plain)).map(|time| time / operands.len() as f64);
        println!("{name:12}{a:8.2}{b:10.2}{:8.2}", a / b);
    }
}

fn main() {
    println!("nanoseconds for each byte, the best of {RUNS} runs; columns as long as needed, not cleared");
    println!("{:24}{:>8}{:>8}  {:12}{:>8}{:>10}{:>8}", "", "bytes", "tokens", "", "proved", "reference", "ratio");
    let only = std::env::args().nth(1).unwrap_or_default();
    for (name, file) in files().into_iter().filter(|(name, _)| name.contains(&only)) {
        let rows = tokens::read(&file).expect("a file of tokens");
        for Timed { step, proved, reference } in steps(&file, &rows) {
            let [a, b] = [proved, reference].map(|time| time / file.len() as f64);
            println!("{name:24}{:8}{:8}  {step:12}{a:8.3}{b:10.3}{:8.2}", file.len(), rows.len(), a / b);
        }
    }
    if "stages".contains(&only) {
        print_stages();
    }
    if "names".contains(&only) {
        print_names();
        print_hostile_names();
    }
    if "kinds".contains(&only) {
        print_kinds();
    }
    if "arithmetic".contains(&only) {
        print_arithmetic();
    }
}
