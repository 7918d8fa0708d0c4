//! The progress line: on a terminal alone.

mod common;

use common::{command, file, folder, opened, pipe, told, ACCEPTED};
use std::ffi::{c_char, c_int, CStr, OsStr};
use std::fs::{File, OpenOptions};
use std::io::{Read, Write};
use std::os::fd::{FromRawFd, RawFd};
use std::os::unix::ffi::OsStrExt;
use std::process::{Child, Stdio};
use std::thread;
use std::time::Duration;

extern "C" {
    fn posix_openpt(flags: c_int) -> RawFd;
    fn grantpt(terminal: RawFd) -> c_int;
    fn unlockpt(terminal: RawFd) -> c_int;
    fn ptsname_r(terminal: RawFd, name: *mut c_char, length: usize) -> c_int;
}

/// Reading and writing, and not the terminal of this process.
const OPEN: c_int = 0o2 | 0o400;

/// A terminal: the end that a program writes to, and the one that shows it.
fn terminal() -> (File, File) {
    let mut name = [0 as c_char; 100];
    // SAFETY: these calls of the C library write nothing but the name, within its length, and the file is owned here alone.
    let (shows, name) = unsafe {
        let shows = posix_openpt(OPEN);
        assert!(shows >= 0 && grantpt(shows) == 0 && unlockpt(shows) == 0);
        assert_eq!(ptsname_r(shows, name.as_mut_ptr(), name.len()), 0);
        (File::from_raw_fd(shows), CStr::from_ptr(name.as_ptr()))
    };
    let program =
        OpenOptions::new().read(true).write(true).open(OsStr::from_bytes(name.to_bytes())).expect("a terminal");
    (program, shows)
}

/// Checks two files, of which one comes late through a pipe, and gives what was said.
fn said_slowly(test: &str, stderr: impl Into<Stdio>, said: impl FnOnce(Child) -> String) -> String {
    let folder = folder(test);
    let early = file(&folder, "early.exp", ACCEPTED);
    let late = pipe(&folder, "late.exp");
    let mut child =
        command().args(["check", &early, &late]).stdout(Stdio::null()).stderr(stderr).spawn().expect("it starts");
    // Opens when the command has opened its end: so however late it starts, it waits for longer than a pause of the progress line.
    let mut end = opened(&late, &mut child).expect("it reads the pipe");
    thread::sleep(Duration::from_millis(300));
    end.write_all(ACCEPTED.as_bytes()).expect("it reads");
    drop(end);
    said(child)
}

#[test]
fn progress_is_shown_on_a_terminal_and_taken_away() {
    let (program, mut shows) = terminal();
    let text = said_slowly("shown", program, |mut child| {
        child.wait().expect("it ends");
        // The terminal says so by an error when its last writer is gone.
        let mut bytes = Vec::new();
        let _ = shows.read_to_end(&mut bytes);
        String::from_utf8_lossy(&bytes).into_owned()
    });
    // It may be at the first or at the second: where the early file is slow, the late one falls into the pause behind it.
    assert!(text.contains(" of 2 files\r\x1b[K"), "{text:?}");
    assert!(text.contains("2 accepted, 0 refused"), "{text:?}");
}

#[test]
fn nothing_but_the_totals_is_said_elsewhere() {
    let text = said_slowly("not-shown", Stdio::piped(), |child| told(&child.wait_with_output().expect("it ends")).1);
    assert!(text.starts_with("2 accepted, 0 refused, ") && text.lines().count() == 1, "{text:?}");
}
