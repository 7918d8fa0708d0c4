//! Two checkers on the files of many seeds.

use super::{file, lengths, plan, tally::Tally};
use crate::difference::{hold, needed, Checker, Difference};
use crate::lanes;
use reference::Checked;
use std::panic::{catch_unwind, AssertUnwindSafe};

/// Runs both checkers on the files of `count` seeds; the difference of the smallest seed is given, on a file made smaller.
pub fn compare(count: u64, first_seed: u64, left: impl Checker, right: impl Checker) -> Result<Tally, Box<Difference>> {
    let work = |tally: &mut Tally, seed: u64| {
        tally.add(plan(seed).0, &compare_one(seed, &file(seed), &left, &right)?);
        Ok(())
    };
    let tallies = lanes::run(first_seed..first_seed + count, lanes::cores(), work);
    tallies.map(Tally::sum).map_err(|difference: Box<Difference>| difference.shrunk(&left, &right))
}

/// Both checkers on the file of a seed, with tables and a room of the seed's lengths.
pub fn compare_one(
    seed: u64,
    file: &[u8],
    left: &impl Checker,
    right: &impl Checker,
) -> Result<Checked, Box<Difference>> {
    // A checker that panics while the needs are found does so again below, where it is reported.
    let needed = catch_unwind(AssertUnwindSafe(|| needed(file, right))).unwrap_or_default();
    let lengths = lengths(seed, needed);
    hold(file, lengths, left, right, || format!("seed {seed} ({:?})", plan(seed).0))
}
