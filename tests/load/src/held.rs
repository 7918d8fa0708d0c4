//! One file: the proved call held to the reference's tables; the library and the proved program to its listing.

use compare::difference::{hold, Checker, Difference};
use compare::program::{expected, run};
use compare::random::compare_one;
use compare::shrink;
use product::{by_reference, check};
use reference::{Checked, Lent};
use std::fmt;
use std::panic::catch_unwind;
use std::process::Output;
use woffulent::Rows;

/// A file of which the proved code gives something else than the reference, made smaller.
#[derive(Debug)]
pub enum Fault {
    /// The report, a table or the room, from the call (left) and from the reference (right).
    Tables(Box<Difference>),
    /// The listing, from the library or the program and from the reference.
    Listing { name: String, by: &'static str, file: Vec<u8>, listings: [Vec<u8>; 2] },
}

/// The call on a file, with tables and a room of these lengths; where it is accepted, the library's listing too, which is one line otherwise.
pub fn held(file: &[u8], lent: Lent, name: impl Fn() -> String) -> Result<Checked, Fault> {
    let checked = held_by(&check, file, lent, &name)?;
    if checked.report.reply == 0 {
        listed_by_library(file, &checked, name)?;
    }
    Ok(checked)
}

/// One of the calls on a file.
pub fn held_by(call: &impl Checker, file: &[u8], lent: Lent, name: impl FnOnce() -> String) -> Result<Checked, Fault> {
    hold(file, lent, call, &by_reference, name)
        .map_err(|difference| Fault::Tables(difference.shrunk(call, &by_reference)))
}

/// As `held` on the file of a seed, with tables and a room that are mostly long enough.
pub fn held_of_seed(seed: u64, file: &[u8]) -> Result<Checked, Fault> {
    let compared = compare_one(seed, file, &check, &by_reference);
    let checked = compared.map_err(|difference| Fault::Tables(difference.shrunk(&check, &by_reference)))?;
    listed_by_library(file, &checked, || format!("seed {seed}"))?;
    Ok(checked)
}

/// Each try of the program starts a process.
const LISTING_TRIES: usize = 2_000;

/// A way to list a file.
type List<'a> = &'a dyn Fn(&[u8]) -> Vec<u8>;

/// A listing of a file held to the reference's.
fn hold_listing(
    by: &'static str,
    file: &[u8],
    [given, wanted]: [List; 2],
    name: impl FnOnce() -> String,
) -> Result<(), Fault> {
    if given(file) == wanted(file) {
        return Ok(());
    }
    let file = shrink(file.to_vec(), LISTING_TRIES, |file| given(file) != wanted(file));
    Err(Fault::Listing { name: name(), by, listings: [given(&file), wanted(&file)], file })
}

/// The program's listing of a file.
pub fn listed(file: &[u8], name: impl FnOnce() -> String) -> Result<(), Fault> {
    hold_listing("program", file, [&written, &expected], name)
}

/// The library's, with as much as a check was lent that is held already.
fn listed_by_library(file: &[u8], checked: &Checked, name: impl FnOnce() -> String) -> Result<(), Fault> {
    let lent = [checked.tokens.len(), checked.nodes.len(), checked.answers.len(), checked.room.len()];
    if by_library(file, lent) == reference::listing(file, checked) {
        return Ok(());
    }
    let by_reference = |file: &[u8]| reference::listing(file, &by_reference(file, lent));
    hold_listing("library", file, [&|file| by_library(file, lent), &by_reference], name)
}

/// What the library lists; a panic is a listing of its own.
fn by_library(file: &[u8], [tokens, nodes, answers, room]: Lent) -> Vec<u8> {
    let list = || {
        let mut checker = woffulent::Checker::with_rows(Rows { tokens, nodes, answers, room });
        let mut listing = Vec::new();
        match checker.check(file) {
            Ok(file) => file.list(&mut listing),
            Err(refusal) => refusal.list(&mut listing),
        }
        listing
    };
    catch_unwind(list).unwrap_or_else(|_| b"a panic".to_vec())
}

/// What the program writes; with how it ended, where that was not well.
fn written(file: &[u8]) -> Vec<u8> {
    let Output { status, mut stdout, stderr } = run(file);
    if !status.success() || !stderr.is_empty() {
        stdout.extend(format!("{status}: {}", String::from_utf8_lossy(&stderr)).bytes());
    }
    stdout
}

impl fmt::Display for Fault {
    fn fmt(&self, f: &mut fmt::Formatter) -> fmt::Result {
        match self {
            Fault::Tables(difference) => write!(f, "{difference}"),
            Fault::Listing { name, by, file, listings: [given, wanted] } => {
                writeln!(f, "{name}, the listing")?;
                writeln!(f, "{by}:\n{}", String::from_utf8_lossy(given))?;
                writeln!(f, "reference:\n{}", String::from_utf8_lossy(wanted))?;
                write!(f, "file, {} bytes: b\"{}\"", file.len(), file.escape_ascii())
            }
        }
    }
}
