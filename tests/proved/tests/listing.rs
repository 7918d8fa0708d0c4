//! The proved program, run on files: what it writes is the listing, and it says so where it cannot read or write.

use compare::cases::{self, PROGRAM_LENGTHS};
use compare::program::{expected, listing, program};
use compare::random::{damaged, file, well_typed, LARGEST};
use reference::MAX_STRING;
use std::fs::{self, File, OpenOptions};
use std::path::{Path, PathBuf};
use std::process::{Command, Output, Stdio};
use std::thread;

/// Seeds of random files, two for each; each is run in a process of its own.
const SEEDS: u64 = 1_000;
const MANY_SEEDS: u64 = 100_000;

#[test]
fn every_case_has_its_listing() {
    let all: Vec<_> = cases::all().into_iter().filter(|case| case.lengths == PROGRAM_LENGTHS).collect();
    let wrong: Vec<_> =
        all.iter().filter(|case| listing(&case.input) != case.expected).map(|case| &case.name).collect();
    assert!(wrong.is_empty(), "{} of {}: {wrong:?}", wrong.len(), all.len());
}

fn hold(seeds: impl Iterator<Item = u64>) {
    for seed in seeds {
        for input in [file(seed), damaged(seed, 300)] {
            assert_eq!(listing(&input), expected(&input), "{}", String::from_utf8_lossy(&input));
        }
    }
}

#[test]
#[ignore = "takes minutes"]
fn many_random_files_have_the_listing_of_the_reference() {
    let cores = thread::available_parallelism().map_or(1, usize::from);
    thread::scope(|scope| {
        (0..cores).for_each(|first| drop(scope.spawn(move || hold((first as u64..MANY_SEEDS).step_by(cores)))));
    });
}

#[test]
fn random_files_have_the_listing_of_the_reference() {
    hold(0..SEEDS);
    let large = well_typed(1, LARGEST);
    assert_eq!(listing(&large), expected(&large));
}

/// A schema with a long name, and constants that hold an item with a long name.
fn long_names(name: usize, constants: usize) -> Vec<u8> {
    let mut text = format!("SCHEMA {};\nCONSTANT\n", "S".repeat(name));
    for i in 0..constants {
        text += &format!("c{i}:e:=i{};", i % 2);
    }
    text += &format!("END_CONSTANT;\nTYPE e=ENUMERATION OF (i0,i1,I{});END_TYPE;\nEND_SCHEMA;", "X".repeat(name));
    text.into_bytes()
}

/// A constant with as long a string as may be, and others that name it.
fn long_strings(byte: &str, constants: usize) -> Vec<u8> {
    let copies: String = (1..constants).map(|i| format!("c{i}:t:=l;")).collect();
    let longest = byte.repeat(MAX_STRING);
    format!("SCHEMA s;CONSTANT l:t:='{longest}';{copies}END_CONSTANT;TYPE t=STRING;END_TYPE;END_SCHEMA;").into_bytes()
}

/// As many strings as long as may be as the program lends room for; of quotes, each of which is listed as two.
#[test]
fn strings_that_fill_the_room_are_listed() {
    for byte in ["x", "''"] {
        let input = long_strings(byte, PROGRAM_LENGTHS[2]);
        let (got, want) = (listing(&input), expected(&input));
        assert!(want.starts_with(b"accepted 1024\n"));
        assert!(got == want, "{byte}: {} bytes, not {}", got.len(), want.len());
    }
}

#[test]
fn listings_longer_than_any_buffer_are_written_whole() {
    for (name, constants) in [(1, 1_024), (300, 1_024), (20_000, 1_024), (20_000, 3), (32_000, 1)] {
        let input = long_names(name, constants);
        let (got, want) = (listing(&input), expected(&input));
        assert!(want.starts_with(b"accepted"), "{name}, {constants}");
        assert!(got == want, "{name}, {constants}: {} bytes, not {}", got.len(), want.len());
    }
}

fn top() -> PathBuf {
    Path::new(env!("CARGO_MANIFEST_DIR")).join("../..")
}

/// Runs the script at the top of the repository, which takes the program where it is linked already.
fn checked(arguments: &[&str]) -> (Option<i32>, Vec<u8>, Vec<u8>) {
    program();
    let Output { status, stdout, stderr } =
        Command::new("./check").args(arguments).current_dir(top()).output().expect("the script ends");
    (status.code(), stdout, stderr)
}

#[test]
fn the_script_writes_the_listing_of_a_file() {
    // One is accepted, the other refused.
    for input in ["examples/finishes", "tests/cases/clash-attribute"] {
        let listing = fs::read(top().join(format!("{input}.out"))).expect("a listing");
        assert_eq!(checked(&[&format!("{input}.exp")]), (Some(0), listing, Vec::new()), "{input}");
    }
    // No such file, none named, and one that opens and cannot be read.
    for (arguments, wanted) in [(&["none.exp"][..], 2), (&[], 2), (&["crates"], 1)] {
        let (status, stdout, stderr) = checked(arguments);
        assert_eq!((status, stdout), (Some(wanted), Vec::new()), "{arguments:?}");
        assert!(!stderr.is_empty(), "{arguments:?}");
    }
}

#[test]
fn an_input_without_end_is_too_long() {
    let endless = File::open("/dev/zero").expect("/dev/zero");
    let Output { status, stdout, stderr } = Command::new(program()).stdin(endless).output().expect("the program ends");
    assert_eq!((status.success(), stdout, stderr), (true, expected(&vec![0; reference::MAX_BYTES + 1]), Vec::new()));
}

#[test]
fn it_says_so_where_it_cannot_read_or_write() {
    let folder = File::open(env!("CARGO_MANIFEST_DIR")).expect("a folder opens");
    let unread = Command::new(program()).stdin(folder).output().expect("the program ends");
    assert!(unread.stdout.is_empty() && !unread.stderr.is_empty());
    let full = OpenOptions::new().write(true).open("/dev/full").expect("/dev/full");
    let unwritten = Command::new(program()).stdin(Stdio::null()).stdout(full).output().expect("the program ends");
    assert!(!unwritten.stderr.is_empty());
}
