//! A checker allocates when it is made, and never again.

use compare::random::{damaged, well_typed};
use std::alloc::{GlobalAlloc, Layout, System};
use std::cell::Cell;
use woffulent::Checker;

/// The system's allocator, with a count of what is asked of it.
struct Counted;

thread_local! {
    /// By this thread: the test harness has others. It begins as a constant and has no destructor, so that it allocates nothing itself.
    static ALLOCATIONS: Cell<usize> = const { Cell::new(0) };
}

// SAFETY: all is passed on to the system's.
unsafe impl GlobalAlloc for Counted {
    unsafe fn alloc(&self, layout: Layout) -> *mut u8 {
        ALLOCATIONS.set(ALLOCATIONS.get() + 1);
        System.alloc(layout)
    }

    unsafe fn dealloc(&self, block: *mut u8, layout: Layout) {
        System.dealloc(block, layout)
    }
}

#[global_allocator]
static ALLOCATOR: Counted = Counted;

/// A file with strings of so many bytes and of twice as many.
fn strings(bytes: usize) -> Vec<u8> {
    let literal = "x".repeat(bytes);
    format!("SCHEMA s; CONSTANT a : STRING := '{literal}'; b : STRING := a + a; END_CONSTANT; END_SCHEMA;").into_bytes()
}

#[test]
fn a_thousand_files_allocate_once() {
    let random = (0..500).flat_map(|seed| [well_typed(seed, 3_000), damaged(seed, 300)]);
    let files: Vec<Vec<u8>> = random.chain((0..260).map(strings)).collect();
    let (mut checker, mut out) = (Checker::new(), Vec::with_capacity(1 << 20));
    let before = ALLOCATIONS.get();
    let mut refused = 0;
    for file in &files {
        out.clear();
        match checker.check(file) {
            Ok(file) => file.list(&mut out),
            Err(refusal) => {
                refusal.list(&mut out);
                refused += 1;
            }
        }
    }
    assert_eq!(ALLOCATIONS.get(), before);
    assert!((200..800).contains(&refused), "{refused}");
}
