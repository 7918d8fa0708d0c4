//! Numbered work on several threads. Numbers are handed out in order, so the failure with the smallest number is the one that
//! a single thread would have met first.

use std::ops::Range;
use std::sync::atomic::{AtomicU64, Ordering};
use std::thread;

/// As many threads as the machine has cores.
pub fn cores() -> usize {
    thread::available_parallelism().map_or(1, usize::from)
}

/// Does the work of each number; gives what each thread gathered, or the failure with the smallest number.
pub fn run<G, E>(
    numbers: Range<u64>,
    lanes: usize,
    work: impl Fn(&mut G, u64) -> Result<(), E> + Sync,
) -> Result<Vec<G>, E>
where
    G: Default + Send,
    E: Send,
{
    let next = AtomicU64::new(numbers.start);
    let lane = || {
        let mut gathered = G::default();
        loop {
            let number = next.fetch_add(1, Ordering::Relaxed);
            if number >= numbers.end {
                return Ok(gathered);
            }
            if let Err(failure) = work(&mut gathered, number) {
                // All smaller numbers are taken, and their threads end them; larger ones are of no matter now.
                next.fetch_max(numbers.end, Ordering::Relaxed);
                return Err((number, failure));
            }
        }
    };
    let ended: Vec<Result<G, (u64, E)>> = thread::scope(|scope| {
        let lanes: Vec<_> = (0..lanes.max(1)).map(|_| scope.spawn(lane)).collect();
        lanes.into_iter().map(|lane| lane.join().expect("panics of checkers are caught")).collect()
    });
    let (gathered, failed): (Vec<_>, Vec<_>) = ended.into_iter().partition(Result::is_ok);
    match failed.into_iter().filter_map(Result::err).min_by_key(|(number, _)| *number) {
        Some((_, failure)) => Err(failure),
        None => Ok(gathered.into_iter().filter_map(Result::ok).collect()),
    }
}
