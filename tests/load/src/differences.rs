//! Random, loosely built and damaged files of up to 64 KiB, each named by its seed.

use crate::held::{held_of_seed, listed, Fault};
use crate::Progress;
use compare::lanes;
use compare::random::{file, plan, Tally};
use std::ops::Range;

/// Which files, and how.
#[derive(Clone, Debug)]
pub struct Run {
    /// The seed of file 0.
    pub seed: u64,
    pub files: Range<u64>,
    pub jobs: usize,
    /// The program is run on the files whose seeds this divides: a process takes longer than most files.
    pub listings: u64,
}

/// What came of the files; or the first fault.
pub fn run(Run { seed: first, files, jobs, listings }: Run) -> Result<Tally, Fault> {
    let progress = Progress::new(files.clone());
    let work = |tally: &mut Tally, number: u64| {
        let seed = first + number;
        let file = file(seed);
        tally.add(plan(seed).0, &held_of_seed(seed, &file)?);
        if seed.is_multiple_of(listings) {
            listed(&file, || format!("seed {seed}"))?;
        }
        progress.step();
        Ok(())
    };
    lanes::run(files, jobs, work).map(Tally::sum)
}
