//! Times of two ways to do one thing, and generated files to take them on.

use crate::random::{well_typed_with, Strings};
use std::ffi::{c_int, c_long};
use std::hint::black_box;
use std::time::Instant;

/// The best of so many runs each, in nanoseconds; the two take turns, so that what else the machine does falls on both.
pub fn best_of<A, B>(runs: usize, mut first: impl FnMut() -> A, mut second: impl FnMut() -> B) -> [f64; 2] {
    let mut best = [f64::INFINITY; 2];
    for _ in 0..runs {
        best = [best[0].min(timed(&mut first)), best[1].min(timed(&mut second))];
    }
    best
}

/// The time of one run, in nanoseconds.
pub fn timed<T>(run: &mut impl FnMut() -> T) -> f64 {
    let start = Instant::now();
    black_box(run());
    start.elapsed().as_secs_f64() * 1e9
}

/// The processor time of a run, in nanoseconds: the mean of runs that take at least `enough` of it together. What else the machine does
/// is not counted.
pub fn processor_time<T>(enough: f64, mut run: impl FnMut() -> T) -> f64 {
    let (mut runs, mut time) = (0, 0.0);
    while runs == 0 || time < enough {
        let batch = runs.max(1);
        let start = processor_time_so_far();
        (0..batch).for_each(|_| drop(black_box(run())));
        time += processor_time_so_far() - start;
        runs += batch;
    }
    time / f64::from(runs)
}

/// `struct timespec` of the C library on 64-bit Linux.
#[repr(C)]
struct Time {
    seconds: c_long,
    nanoseconds: c_long,
}

/// `CLOCK_THREAD_CPUTIME_ID` of Linux.
const OF_THIS_THREAD: c_int = 3;

extern "C" {
    fn clock_gettime(clock: c_int, time: *mut Time) -> c_int;
}

/// That of this thread.
fn processor_time_so_far() -> f64 {
    let mut time = Time { seconds: 0, nanoseconds: 0 };
    // SAFETY: the call writes the time and nothing else.
    assert_eq!(unsafe { clock_gettime(OF_THIS_THREAD, &mut time) }, 0, "the clock of a thread");
    time.seconds as f64 * 1e9 + time.nanoseconds as f64
}

/// Well-typed files of about so many bytes with this share of strings, from a seed on.
pub fn files_near(strings: Strings, size: usize, first_seed: u64) -> impl Iterator<Item = Vec<u8>> {
    let sized = move |file: &Vec<u8>| (size / 4 * 3..=size / 4 * 5).contains(&file.len());
    (first_seed..).map(move |seed| well_typed_with(strings, seed, size)).filter(sized)
}
