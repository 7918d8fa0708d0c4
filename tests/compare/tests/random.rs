//! The reference on random files: no panic, demand 1 kept, every reply met; and the generator itself.

use compare::difference::strings;
use compare::random::{compare, damaged, demand_one, file, loose, well_typed, well_typed_with};
use compare::random::{every_reply, lengths, needed, Strings, Tally, ANSWER_KINDS, LARGEST};
use reference::{check, check_at, Checked, Lent, Level, MAX_STRING, PROGRAM_LENGTHS};
use std::collections::BTreeSet;

const FILES: u64 = 50_000;
/// How often each reply, and each kind of answer, must occur at least.
const FLOOR: u64 = 20;

/// Checks a file, and panics where the result breaks demand 1.
fn held_to_demand_one(bytes: &[u8], lengths: Lent) -> Checked {
    let checked = check(bytes, lengths);
    demand_one(bytes, lengths, &checked).unwrap_or_else(|broken| panic!("{broken}"));
    checked
}

#[test]
fn random_files_keep_demand_one_and_meet_every_reply() {
    // The second check is the first one again: the same call must give the same result.
    let tally = compare(FILES, 0, held_to_demand_one, check).unwrap_or_else(|difference| panic!("{difference}"));
    println!("{tally}");
    for reply in every_reply() {
        assert!(tally.reply(reply) >= FLOOR, "reply {reply} is too rare\n{tally}");
    }
    for kind in ANSWER_KINDS {
        assert!(tally.answers[kind] >= FLOOR, "answers of kind {kind} are too rare\n{tally}");
    }
    let Tally { replies: [well_typed, ..], .. } = tally;
    // Replies 6 to 8 and the last go by what is lent.
    let wrong: u64 = well_typed[1..6].iter().chain(&well_typed[9..16]).sum();
    assert!(well_typed[0] >= 9 * wrong, "well-typed files are refused\n{tally}");
}

#[test]
fn well_typed_files_of_all_sizes_are_accepted() {
    for (size, count) in [(100, 1_000), (400, 400), (3_000, 100), (20_000, 10), (LARGEST, 6)] {
        for seed in 0..count {
            let shares = [Strings::None, Strings::Some, Strings::Most];
            let files = shares.map(|strings| well_typed_with(strings, seed, size)).into_iter();
            for bytes in files.chain([well_typed(seed, size)]) {
                let report = check(&bytes, needed(&bytes, &check)).report;
                assert_eq!((report.reply, report.number), (0, 0), "seed {seed}, size {size}: {}", bytes.escape_ascii());
            }
        }
    }
}

/// Strings of every sort come among the answers of random files, and in joins that are too long; many files have none.
#[test]
fn strings_of_every_sort_come() {
    const SEEDS: u64 = 2_000;
    let (mut without, mut empty, mut quoted, mut longest, mut twice, mut too_long) = (0, 0, 0, 0, 0, 0);
    for seed in 0..SEEDS {
        let bytes = well_typed(seed, 1_000);
        let checked = check(&bytes, PROGRAM_LENGTHS);
        let all: Vec<&[u8]> = strings(&checked).collect();
        without += usize::from(all.is_empty());
        empty += all.iter().filter(|string| string.is_empty()).count();
        quoted += all.iter().filter(|string| string.contains(&b'\'')).count();
        longest += all.iter().filter(|string| string.len() == MAX_STRING).count();
        twice += all.len() - all.iter().collect::<BTreeSet<_>>().len();
        too_long += usize::from(!all.is_empty() && checked.answers.iter().any(|row| row.kind == 16));
    }
    let seen = [without, empty, quoted, longest, twice, too_long];
    assert!(seen.iter().all(|&count| count >= 10) && without >= SEEDS as usize / 3, "{seen:?}");
}

/// Where no constant has a string, the levels do not differ; a string may be too long all the same.
#[test]
fn levels_agree_on_files_without_string_constants() {
    let mut accepted = 0;
    for seed in 0..2_000 {
        let bytes = well_typed_with(Strings::None, seed, 400);
        let checked = check(&bytes, PROGRAM_LENGTHS);
        assert_eq!(checked, check_at(Level::Base, &bytes, PROGRAM_LENGTHS), "seed {seed}");
        accepted += u32::from(checked.report.reply == 0);
    }
    assert!(accepted > 1_900, "{accepted}");
}

#[test]
fn a_seed_gives_one_file_within_the_largest_size() {
    for seed in 0..2_000 {
        assert_eq!(file(seed), file(seed), "seed {seed}");
    }
    for seed in 0..20 {
        for make in [well_typed, loose, damaged] {
            assert_eq!(make(seed, LARGEST), make(seed, LARGEST), "seed {seed}");
        }
        for make in [well_typed, loose] {
            let length = make(seed, LARGEST).len();
            assert!(length <= LARGEST, "seed {seed}: {length} bytes");
        }
    }
}

#[test]
fn lengths_are_mostly_enough_and_sometimes_not() {
    let needs = [100, 80, 10, 300];
    let met = |enough: fn(usize, usize) -> bool, table: usize| {
        (0..1_000).filter(|&seed| enough(lengths(seed, needs)[table], needs[table])).count()
    };
    for table in 0..4 {
        assert!(met(|lent, needed| lent >= needed, table) > 800);
        assert!(met(|lent, needed| lent == needed, table) > 20);
        assert!(met(|lent, needed| lent + 1 == needed, table) > 10);
        assert!(met(|lent, _| lent == 0, table) > 10);
    }
}

#[test]
fn a_difference_is_found_and_made_small() {
    let faulty = |bytes: &[u8], lengths: Lent| {
        let mut checked = check(bytes, lengths);
        checked.report.number += u64::from(checked.report.reply == 13);
        checked
    };
    let difference = compare(1_000, 0, check, faulty).expect_err("some file has a cycle");
    let reply = difference.left.as_ref().map(|checked| checked.report.reply);
    assert_eq!(reply, Ok(13), "{difference}");
    assert!(difference.file.len() < 100, "{difference}");
}

#[test]
fn a_panic_is_reported_with_its_seed() {
    let faulty = |bytes: &[u8], lengths: Lent| {
        if bytes.len() % 7 == 3 {
            // A panic that prints nothing.
            std::panic::resume_unwind(Box::new("seven"));
        }
        check(bytes, lengths)
    };
    let difference = compare(100, 0, check, faulty).expect_err("some file has such a length");
    assert_eq!(difference.right, Err("seven".into()), "{difference}");
    assert_eq!(difference.file.len() % 7, 3);
}
