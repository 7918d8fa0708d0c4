//! The two calls in a small thread, and how much of a stack they use.

use crate::held::{held_by, Fault};
use compare::random::needed;
use product::{by_reference, check, check_records, stack_of, Lengths, RecordTables, Tables};
use std::thread;

/// The stack that a thread of Rust has where nothing else is said.
const THREAD: usize = 2 << 20;
/// What the call may use, and the call with records.
pub const LIMITS: [usize; 2] = [3 << 19, 7 << 18];

/// Holds both calls to the reference in a thread of 2 MiB; more than it has would end the process.
pub fn held_in_thread(name: &str, file: &[u8]) -> Result<(), Fault> {
    let lent = needed(file, &by_reference);
    let calls = || {
        held_by(&check, file, lent, || name.to_string())?;
        held_by(&check_records, file, lent, || format!("{name}, with records")).map(drop)
    };
    thread::scope(|scope| {
        let run = thread::Builder::new().stack_size(THREAD).spawn_scoped(scope, calls);
        run.expect("a thread").join().expect("panics of checkers are caught")
    })
}

/// The bytes of stack that each of them uses on a file.
pub fn used(file: &[u8]) -> [usize; 2] {
    let lent = needed(file, &by_reference);
    let (mut tables, mut records) = (Tables::new(Lengths::even(lent), 1), RecordTables::new(lent, 1));
    [stack_of(&mut || tables.check(file)).1, stack_of(&mut || records.check(file)).1]
}

pub fn is_within(used: [usize; 2]) -> bool {
    used[0] < LIMITS[0] && used[1] < LIMITS[1]
}
