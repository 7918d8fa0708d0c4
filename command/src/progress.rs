//! A line that says how far the work is, on a terminal alone.

use std::io::{self, IsTerminal, Write};
use std::time::{Duration, Instant};

/// It is written anew after so long.
const PAUSE: Duration = Duration::from_millis(100);
const CLEAR: &[u8] = b"\r\x1b[K";

pub struct Progress {
    files: usize,
    /// When it was written last; none where there is no terminal, or nothing to wait for.
    last: Option<Instant>,
    shown: bool,
}

impl Progress {
    pub fn new(files: usize) -> Self {
        let last = (files > 1 && io::stderr().is_terminal()).then(Instant::now);
        Progress { files, last, shown: false }
    }

    /// Takes the line away, for other output may go to the same terminal.
    pub fn clear(&mut self) {
        if self.shown {
            put(CLEAR);
            self.shown = false;
        }
    }

    pub fn show(&mut self, done: usize) {
        if let Some(last) = self.last.filter(|last| last.elapsed() >= PAUSE) {
            put(CLEAR);
            put(format!("{done} of {} files", self.files).as_bytes());
            self.last = Some(last + last.elapsed());
            self.shown = true;
        }
    }
}

/// Where the terminal does not take it, nothing is lost.
fn put(bytes: &[u8]) {
    let _ = io::stderr().write_all(bytes);
}
