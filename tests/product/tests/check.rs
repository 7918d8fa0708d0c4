//! The public call held to the reference: random and damaged files, the cases, and columns of many lengths.

use compare::random::{self, damaged, needed, Strings, LARGEST};
use compare::timing::files_near;
use product::{by_reference, check, check_columns, columns_of, compare_cases, compare_random, every_room, Lengths};
use reference::Lent;

const FILES: u64 = 50_000;
const MANY_FILES: u64 = 200_000;
/// Files that are checked with columns of every length.
const LENGTHS: usize = 200;
/// Tables of every length take the square of a file's size.
const SMALL: usize = 600;
/// Sizes of files that are checked with columns of a few lengths, and how many of each there are.
const SIZES: [usize; 3] = [4 << 10, 20 << 10, LARGEST];
const OF_A_SIZE: usize = 3;

#[test]
fn random_files_are_checked_as_the_reference_does() {
    compare_random(FILES, 1, check);
}

#[test]
#[ignore = "takes a minute"]
fn many_random_files_are_checked_as_the_reference_does() {
    compare_random(MANY_FILES, 1, check);
}

#[test]
fn cases_are_checked_as_the_reference_does() {
    compare_cases(check);
}

/// Each column by itself, with all others long enough, and all of a table together, and the room, in the lengths that are tried where so
/// many are needed.
fn lengths_of(needed: Lent, tried: fn(usize) -> Vec<usize>) -> impl Iterator<Item = Lengths> {
    let long = Lengths::even(needed.map(|rows| rows + 1));
    let column = move |table: usize, column: usize, length: usize| {
        let mut lengths = long;
        [&mut lengths.tokens[..], &mut lengths.nodes[..], &mut lengths.answers[..]][table][column] = length;
        lengths
    };
    let columns = [3, 4, 3];
    let one = (0..3).flat_map(move |table| {
        (0..columns[table])
            .flat_map(move |c| tried(needed[table]).into_iter().map(move |length| column(table, c, length)))
    });
    let table = (0..4).flat_map(move |table| {
        tried(needed[table]).into_iter().map(move |rows| {
            let mut even = needed.map(|rows| rows + 1);
            even[table] = rows;
            Lengths::even(even)
        })
    });
    one.chain(table)
}

/// Holds the columns to the reference's in all these lengths; gives the number of calls.
fn hold_lengths(files: impl Iterator<Item = Vec<u8>>, tried: fn(usize) -> Vec<usize>) -> usize {
    let mut calls = 0;
    for (seed, file) in (0..).zip(files) {
        for lengths in lengths_of(needed(&file, &by_reference), tried) {
            let wanted = columns_of(&by_reference(&file, lengths.lent()), lengths);
            let given = check_columns(&file, lengths, seed);
            let (reports, file) = ([given.report, wanted.report], file.escape_ascii());
            assert!(given == wanted, "{lengths:?} {reports:?} {file}");
            calls += 1;
        }
    }
    println!("{calls} calls");
    calls
}

#[test]
fn columns_of_every_length_hold_what_the_reference_s_do() {
    let files = (0..).map(random::file).filter(|file| file.len() <= SMALL).take(LENGTHS);
    assert!(hold_lengths(files, |needed| (0..=needed + 1).collect()) > 50_000);
}

#[test]
fn columns_of_large_files_hold_what_the_reference_s_do() {
    let files = SIZES.into_iter().flat_map(|size| {
        let is_near = move |file: &Vec<u8>| (size / 4 * 3..=size / 4 * 5).contains(&file.len());
        let wrong = (0..).map(move |seed| damaged(seed, size)).filter(is_near);
        files_near(Strings::Some, size, 0).take(OF_A_SIZE).chain(wrong.take(OF_A_SIZE))
    });
    let few = |needed: usize| vec![0, 1, needed.saturating_sub(1), needed, needed + 1];
    // Ten columns, three tables and the room of each file, in five lengths.
    assert_eq!(hold_lengths(files, few), SIZES.len() * 2 * OF_A_SIZE * 14 * 5);
}

#[test]
fn rooms_of_every_length_hold_what_the_reference_s_do() {
    for (file, lent) in every_room() {
        let lengths = Lengths::even(lent);
        let wanted = columns_of(&by_reference(&file, lent), lengths);
        assert!(check_columns(&file, lengths, 1) == wanted, "{lent:?} {:?} {}", wanted.report, file.escape_ascii());
    }
}
