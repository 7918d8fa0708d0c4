//! How far a long run is: one line that is written over, on a terminal alone.

use std::io::{stderr, IsTerminal, Write};
use std::ops::Range;
use std::sync::atomic::{AtomicU64, Ordering};
use std::sync::Mutex;
use std::time::{Duration, Instant};

const PAUSE: Duration = Duration::from_millis(200);

pub struct Progress {
    numbers: Range<u64>,
    done: AtomicU64,
    start: Instant,
    /// When the line was last written; nothing where there is no terminal.
    shown: Option<Mutex<Instant>>,
}

impl Progress {
    /// Of work that goes through these numbers.
    pub fn new(numbers: Range<u64>) -> Self {
        let start = Instant::now();
        let shown = stderr().is_terminal().then(|| Mutex::new(start));
        Progress { numbers, done: AtomicU64::new(0), start, shown }
    }

    /// One more is done. Numbers are taken in order, so a run that is stopped can go on a little before the number shown.
    pub fn step(&self) {
        let done = 1 + self.done.fetch_add(1, Ordering::Relaxed);
        let Some(Ok(mut shown)) = self.shown.as_ref().map(Mutex::try_lock) else { return };
        if shown.elapsed() < PAUSE {
            return;
        }
        *shown = Instant::now();
        let rate = done as f64 / self.start.elapsed().as_secs_f64();
        // What cannot be shown is of no matter to the run.
        let _ = write!(stderr(), "\r{} of {}, {rate:.0} a second ", self.numbers.start + done, self.numbers.end);
    }
}

impl Drop for Progress {
    fn drop(&mut self) {
        if self.shown.is_some() {
            let _ = write!(stderr(), "\r{:60}\r", "");
        }
    }
}
