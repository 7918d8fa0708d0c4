//! All files, on all cores, with the results in the order of the files.

use crate::forms::{self, Form};
use crate::inputs::Input;
use crate::names::shown;
use crate::progress::Progress;
use crate::totals::Totals;
use std::io::{self, ErrorKind, Write};
use std::sync::atomic::{AtomicUsize, Ordering};
use std::sync::{Condvar, Mutex, MutexGuard, PoisonError};
use std::thread;
use std::time::Instant;
use woffulent::{Checker, Reply, Rows};

/// Room for the proved call, which needs less than 1.5 MiB, and for the rest.
const STACK: usize = 4 << 20;
/// The most files that are taken at a time.
const MOST_AT_A_TIME: usize = 32;
/// As soon as there is so much to write of them, it is written: one listing can have 56 megabytes.
const MUCH: usize = 1 << 20;

/// Checks all files and writes what came of them; the exit status is given.
pub fn run(inputs: &[Input], form: Form, rows: Rows) -> u8 {
    let start = Instant::now();
    let cores = thread::available_parallelism().map_or(1, usize::from);
    // Several portions for each core, so that none waits long for another at the end.
    let at_a_time = (inputs.len() / (8 * cores)).clamp(1, MOST_AT_A_TIME);
    let work = Work { inputs, form, rows, at_a_time, next: AtomicUsize::new(0), line: Line::new(inputs.len()) };
    thread::scope(|scope| {
        for _ in 0..cores.min(inputs.len()) {
            let started = thread::Builder::new().stack_size(STACK).spawn_scoped(scope, || work.do_portions());
            if let Err(error) = started {
                work.line.stop(error);
            }
        }
    });
    let State { totals, mut progress, stopped, .. } =
        work.line.state.into_inner().unwrap_or_else(PoisonError::into_inner);
    progress.clear();
    match stopped {
        Some(error) if error.kind() == ErrorKind::BrokenPipe => crate::FAILED,
        Some(error) => {
            complain(format!("woffulent: {error}\n").as_bytes());
            crate::FAILED
        }
        None => {
            if inputs.len() > 1 {
                complain(format!("{}\n", totals.in_time(start.elapsed())).as_bytes());
            }
            totals.status()
        }
    }
}

/// What all threads share.
struct Work<'a> {
    inputs: &'a [Input],
    form: Form,
    rows: Rows,
    at_a_time: usize,
    /// The first file that nobody has taken.
    next: AtomicUsize,
    line: Line,
}

impl Work<'_> {
    /// Takes one portion of files after the other, until there are no more.
    fn do_portions(&self) {
        let _watch = Watch(&self.line);
        let mut worker =
            Worker { checker: Checker::with_rows(self.rows), source: Vec::new(), portion: Portion::default() };
        loop {
            let first = self.next.fetch_add(self.at_a_time, Ordering::Relaxed);
            let Some(rest) = self.inputs.get(first..).filter(|rest| !rest.is_empty()) else { return };
            worker.portion.begin(first);
            if !self.do_portion(&mut worker, &rest[..rest.len().min(self.at_a_time)]) {
                return;
            }
        }
    }

    /// Checks some files and delivers what came of them; whether there is more to do.
    fn do_portion(&self, worker: &mut Worker, files: &[Input]) -> bool {
        for (i, input) in files.iter().enumerate() {
            worker.check(input, self.form, self.inputs.len() > 1);
            let is_last = i + 1 == files.len();
            if is_last || worker.portion.output.len() >= MUCH {
                if !self.line.deliver(&worker.portion) {
                    return false;
                }
                worker.portion.begin(worker.portion.first + worker.portion.files);
            }
        }
        true
    }
}

/// Stops the line where its thread panics, so that no other waits for what will not come.
struct Watch<'a>(&'a Line);

impl Drop for Watch<'_> {
    fn drop(&mut self) {
        if thread::panicking() {
            self.0.stop(io::Error::other("a thread has failed"));
        }
    }
}

/// What came of some files that follow each other.
#[derive(Default)]
struct Portion {
    /// The number of the first of them.
    first: usize,
    files: usize,
    output: Vec<u8>,
    complaints: Vec<u8>,
    totals: Totals,
}

impl Portion {
    /// Nothing yet, of the files from a number on.
    fn begin(&mut self, first: usize) {
        (self.first, self.files) = (first, 0);
        self.output.clear();
        // The room of a huge listing is not kept for all files to come.
        self.output.shrink_to(MUCH);
        self.complaints.clear();
        self.totals = Totals::default();
    }
}

/// A thread's own tables and buffers, which serve for all its files.
struct Worker {
    checker: Checker,
    source: Vec<u8>,
    portion: Portion,
}

impl Worker {
    fn check(&mut self, input: &Input, form: Form, several: bool) {
        let Portion { files, output, complaints, totals, .. } = &mut self.portion;
        *files += 1;
        if let Err(fault) = input.read(&mut self.source) {
            complaints.extend_from_slice(format!("woffulent: {}: {fault}\n", shown(input.bytes())).as_bytes());
            if form == Form::Json {
                forms::json_fault(input.bytes(), &fault, output);
            }
            return totals.add_unread();
        }
        let result = self.checker.check(&self.source);
        totals.add(result.as_ref().map_or_else(|refusal| refusal.reply(), |_| Reply::Accepted), self.source.len());
        forms::write(form, input.bytes(), several, &result, output);
    }
}

/// The threads in a line: each writes when all files before its own are written.
struct Line {
    state: Mutex<State>,
    moved: Condvar,
}

struct State {
    /// How many files are written.
    done: usize,
    totals: Totals,
    progress: Progress,
    /// Why nothing more is written.
    stopped: Option<io::Error>,
}

impl Line {
    fn new(files: usize) -> Self {
        let state = State { done: 0, totals: Totals::default(), progress: Progress::new(files), stopped: None };
        Line { state: Mutex::new(state), moved: Condvar::new() }
    }

    /// Writes a portion when its turn has come; whether there is more to do.
    fn deliver(&self, portion: &Portion) -> bool {
        let waiting = |state: &mut State| state.done != portion.first && state.stopped.is_none();
        let state = self.moved.wait_while(self.lock(), waiting);
        let mut state = state.unwrap_or_else(PoisonError::into_inner);
        if state.stopped.is_none() {
            state.progress.clear();
            state.stopped = put(&portion.output).err();
            complain(&portion.complaints);
            state.totals.join(&portion.totals);
            state.done += portion.files;
            let done = state.done;
            state.progress.show(done);
        }
        self.moved.notify_all();
        state.stopped.is_none()
    }

    fn stop(&self, error: io::Error) {
        self.lock().stopped = Some(error);
        self.moved.notify_all();
    }

    /// The state stays whole whatever a thread does that holds it.
    fn lock(&self) -> MutexGuard<'_, State> {
        self.state.lock().unwrap_or_else(PoisonError::into_inner)
    }
}

fn put(output: &[u8]) -> io::Result<()> {
    let mut out = io::stdout();
    out.write_all(output)?;
    out.flush()
}

/// Where nobody takes a complaint, the exit status still tells.
pub fn complain(text: &[u8]) {
    let _ = io::stderr().write_all(text);
}
