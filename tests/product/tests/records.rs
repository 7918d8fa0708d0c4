//! The call with records held to the reference: random and damaged files, the cases, and records of every length.

use compare::random::{self, needed};
use product::{by_reference, check_records, compare_cases, compare_random, every_room, record_columns, recorded};
use std::mem::{offset_of, size_of};
use woffulent::call::Record;

const FILES: u64 = 50_000;
/// Files that are checked with records of every length.
const LENGTHS: usize = 200;
/// Files with fewer constants say little of lengths.
const FEWEST: usize = 3;

/// What C makes of `struct { uint8_t kind; int64_t number; uint8_t length; }`.
#[test]
fn a_record_lies_in_memory_as_in_c() {
    let places =
        [offset_of!(Record, kind), offset_of!(Record, number), offset_of!(Record, length), size_of::<Record>()];
    assert_eq!(places, [0, 8, 16, 24]);
}

#[test]
fn random_files_are_checked_as_the_reference_does() {
    compare_random(FILES, 1_000_000, check_records);
}

#[test]
fn cases_are_checked_as_the_reference_does() {
    compare_cases(check_records);
}

/// From no record to one more than needed, with all else as long as needed.
#[test]
fn records_of_every_length_hold_what_the_reference_s_do() {
    let many = |file: &Vec<u8>| needed(file, &by_reference)[2] >= FEWEST;
    let mut calls = 0u32;
    for (seed, file) in (0..).zip((0..).map(random::file).filter(many).take(LENGTHS)) {
        let [tokens, nodes, constants, room] = needed(&file, &by_reference);
        for length in 0..=constants + 1 {
            let lent = [tokens, nodes, length, room];
            let wanted = recorded(&by_reference(&file, lent), lent);
            assert_eq!(record_columns(&file, lent, seed), wanted, "{lent:?} {}", file.escape_ascii());
            calls += 1;
        }
    }
    println!("{calls} calls");
    assert!(calls > 1_000);
}

#[test]
fn rooms_of_every_length_hold_what_the_reference_s_do() {
    for (file, lent) in every_room() {
        let wanted = recorded(&by_reference(&file, lent), lent);
        assert_eq!(record_columns(&file, lent, 1), wanted, "{lent:?} {}", file.escape_ascii());
    }
}
