//! What the gate runs of the load: as much as takes about a minute. The commands of `src/main.rs` run all of it.

use compare::hostile::{families, Family};
use compare::lanes::cores;
use compare::random::every_reply;
use load::hostile::{timed, SIZES};
use load::{differences, memory, mutations, short};
use std::process::Command;

/// Seeds that no other test of the public call has.
const FIRST: u64 = 1_000_000;
const FILES: u64 = 50_000;
/// One file in so many is given to the program too.
const LISTINGS: u64 = 100;
/// One mutation in so many: an odd number, so that all of the four changes come.
const MUTATIONS: u64 = 15;
/// Tokens of the short texts.
const TOKENS: u32 = 5;
/// Twenty times what the slowest file takes, in nanoseconds of the processor.
const PATIENCE: f64 = 250e6;
const ONE_RUN: f64 = 0.0;
/// The last seed that there is, 2^64 - 1.
const LAST: &str = "18446744073709551615";

#[test]
fn random_files_are_held() {
    let run = differences::Run { seed: FIRST, files: 0..FILES, jobs: cores(), listings: LISTINGS };
    let tally = differences::run(run).unwrap_or_else(|fault| panic!("{fault}"));
    println!("{tally}");
    every_reply().for_each(|reply| assert!(tally.reply(reply) >= 20, "reply {reply} is too rare\n{tally}"));
}

#[test]
fn changed_cases_are_held() {
    let replies = mutations::run(MUTATIONS, cores()).unwrap_or_else(|fault| panic!("{fault}"));
    println!("{replies}");
    every_reply().for_each(|reply| assert!(replies.of(reply) >= 20, "reply {reply} is too rare: {replies}"));
}

#[test]
fn short_texts_are_held() {
    let replies = short::run(TOKENS, cores()).unwrap_or_else(|fault| panic!("{fault}"));
    println!("{replies}");
    assert_eq!(replies.count(), short::count(TOKENS));
    [0, 4, 13, 15].iter().for_each(|&reply| assert!(replies.of(reply) > 0, "reply {reply}: {replies}"));
}

#[test]
fn hostile_files_are_held_in_time_and_in_a_small_thread() {
    for Family { name, file } in families() {
        for size in SIZES {
            let file = file(size);
            assert!((size / 10 * 9..=size).contains(&file.len()), "{name}: {} of {size} bytes", file.len());
            memory::held_in_thread(name, &file).unwrap_or_else(|fault| panic!("{fault}"));
            let timed = timed(name, &file, ONE_RUN).unwrap_or_else(|fault| panic!("{fault}"));
            assert!(timed.proved < PATIENCE, "{name}: {timed:?}");
        }
    }
}

#[test]
fn the_stack_is_within_its_limit() {
    for Family { name, file } in families() {
        let used = memory::used(&file(SIZES[1]));
        assert!(memory::is_within(used), "{name}: {used:?} bytes");
    }
}

/// A run that held nothing would look like one that found nothing.
#[test]
fn a_run_without_files_is_bad_usage() {
    for options in [["--files", "5", "--from", "5"], ["--files", "0", "--seed", "1"], ["--files", "2", "--seed", LAST]]
    {
        let output = Command::new(env!("CARGO_BIN_EXE_load")).arg("differences").args(options).output();
        assert_eq!(output.expect("it ends").status.code(), Some(2), "{options:?}");
    }
}
