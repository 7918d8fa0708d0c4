//! The room that a call takes on the stack: it runs in a thread whose stack is memory that is filled with a pattern before.

use reference::Report;
use std::ffi::{c_int, c_void};
use std::ptr::null_mut;

const STACK: usize = 4 << 20;
const PATTERN: u8 = 0xa5;

/// `pthread_attr_t` of glibc on x86-64.
#[repr(C, align(8))]
struct Attributes([u8; 56]);

extern "C" {
    fn pthread_attr_init(attributes: *mut Attributes) -> c_int;
    fn pthread_attr_setstack(attributes: *mut Attributes, lowest: *mut c_void, size: usize) -> c_int;
    fn pthread_create(
        thread: *mut usize,
        attributes: *const Attributes,
        run: extern "C" fn(*mut c_void) -> *mut c_void,
        with: *mut c_void,
    ) -> c_int;
    fn pthread_join(thread: usize, result: *mut *mut c_void) -> c_int;
}

/// A page of a stack.
#[derive(Clone)]
#[repr(C, align(4096))]
struct Page([u8; 4096]);

/// A call, and the address of a local of the function that makes it.
struct Call<'a> {
    run: &'a mut dyn FnMut() -> Report,
    top: usize,
    report: Option<Report>,
}

extern "C" fn run(call: *mut c_void) -> *mut c_void {
    // SAFETY: `stack_of` hands in its own call and waits for the thread.
    let call = unsafe { &mut *call.cast::<Call>() };
    let here = 0u8;
    call.top = &raw const here as usize;
    call.report = Some((call.run)());
    null_mut()
}

/// The report, and the bytes between the caller's frame and the lowest byte of the stack that changed.
pub fn stack_of(run_once: &mut dyn FnMut() -> Report) -> (Report, usize) {
    let mut stack = vec![Page([PATTERN; 4096]); STACK / 4096];
    let lowest = stack.as_mut_ptr();
    let mut call = Call { run: run_once, top: 0, report: None };
    let (mut attributes, mut thread) = (Attributes([0; 56]), 0);
    // SAFETY: the stack is memory of this function that nothing else uses until the thread has ended.
    unsafe {
        assert_eq!(pthread_attr_init(&mut attributes), 0);
        assert_eq!(pthread_attr_setstack(&mut attributes, lowest.cast(), STACK), 0);
        assert_eq!(pthread_create(&mut thread, &attributes, run, (&raw mut call).cast()), 0);
        assert_eq!(pthread_join(thread, null_mut()), 0);
    }
    let bytes = stack.iter().flat_map(|page| &page.0);
    let untouched = bytes.take_while(|byte| **byte == PATTERN).count();
    (call.report.expect("a report"), call.top - lowest as usize - untouched)
}
