//! The room that a call takes on the stack, measured.

use compare::random::well_typed;
use product::{by_reference, stack_of, Lengths, RecordTables, Tables};
use reference::{Lent, Report, MAX_STRING};

/// The most that `check` may take, and `check_records`, which has answer columns of its own.
const CHECK_MOST: usize = 3 << 19;
const RECORDS_MOST: usize = 7 << 18;

/// The bytes of small, middle and large files.
const SIZES: [usize; 3] = [2_048, 16_384, 65_536];

/// A file of a size whose middle is repeated.
fn repeated(before: &str, middle: impl Fn(usize) -> String, after: &str, size: usize) -> Vec<u8> {
    let mut file = before.to_string();
    for i in 0.. {
        let next = middle(i);
        if file.len() + next.len() + after.len() > size {
            break;
        }
        file += &next;
    }
    file += after;
    let padding = " ".repeat(size - file.len());
    (file + &padding).into_bytes()
}

/// Accepted files of a size with many tokens, many constants, the deepest nesting, many declarations of each sort, many
/// strings; and generated ones.
fn worst_files(size: usize) -> Vec<Vec<u8>> {
    let end = "END_CONSTANT;END_SCHEMA;";
    let longest = "x".repeat(MAX_STRING);
    let nested = |i: usize| format!("c{i}:INTEGER:={}1{};", "(".repeat(64), ")".repeat(64));
    let intervals = |i: usize| format!("c{i}:LOGICAL:={}TRUE{};", "{FALSE<=".repeat(64), "<=TRUE}".repeat(64));
    let built = [
        repeated("SCHEMA s;CONSTANT c:INTEGER:=1", |_| "+1".into(), &format!(";{end}"), size),
        repeated("SCHEMA s;CONSTANT ", |i| format!("c{i}:INTEGER:=1;"), end, size),
        repeated("SCHEMA s;CONSTANT ", nested, end, size),
        repeated("SCHEMA s;CONSTANT ", intervals, end, size),
        repeated("SCHEMA s;", |i| format!("TYPE t{i}=INTEGER;END_TYPE;"), "END_SCHEMA;", size),
        repeated(
            "SCHEMA s;ENTITY e;END_ENTITY;",
            |i| format!("ENTITY e{i} SUBTYPE OF(e);a{i}:e;END_ENTITY;"),
            "END_SCHEMA;",
            size,
        ),
        repeated("", |i| format!("SCHEMA s{i};END_SCHEMA;"), "", size),
        repeated("SCHEMA s;CONSTANT c:STRING:=''", |_| "+''".into(), &format!(";{end}"), size),
        repeated(&format!("SCHEMA s;CONSTANT c:STRING:='{longest}';"), |i| format!("c{i}:STRING:=c;"), end, size),
    ];
    built.into_iter().chain((0..8).map(|seed| well_typed(seed, size))).collect()
}

/// The most that any of the files takes, size by size.
fn most(name: &str, bound: usize, tables: impl Fn(Lent) -> Box<dyn FnMut(&[u8]) -> Report>) {
    for size in SIZES {
        let measured = |file: &Vec<u8>| {
            let rows = file.len();
            let lent = [rows, rows, rows, rows * MAX_STRING];
            let mut check = tables(lent);
            let (report, bytes) = stack_of(&mut || check(file));
            assert_eq!(report, by_reference(file, lent).report, "{}", file.escape_ascii());
            assert_eq!(report.reply, 0, "{}", file.escape_ascii());
            bytes
        };
        let bytes = worst_files(size).iter().map(measured).max().expect("a file");
        println!("{name} of files of {size} bytes: {bytes} bytes of stack");
        assert!(bytes < bound, "{name} takes {bytes} bytes of stack");
    }
}

#[test]
fn check_takes_less_than_a_mebibyte_and_a_half() {
    most("check", CHECK_MOST, |lent| {
        let mut tables = Tables::new(Lengths::even(lent), 1);
        Box::new(move |file| tables.check(file))
    });
}

#[test]
fn check_records_takes_little_more() {
    most("check_records", RECORDS_MOST, |lent| {
        let mut tables = RecordTables::new(lent, 1);
        Box::new(move |file| tables.check(file))
    });
}

/// The measure itself: a frame of a known size is seen.
#[test]
fn an_array_on_the_stack_is_measured() {
    let (_, bytes) = stack_of(&mut || {
        std::hint::black_box([1u8; 100_000]);
        by_reference(b"", [0; 4]).report
    });
    assert!((100_000..200_000).contains(&bytes), "{bytes}");
}
