//! The proved program, run on inputs.

use reference::PROGRAM_LENGTHS;
use std::io::{ErrorKind, Write};
use std::path::{Path, PathBuf};
use std::process::{Command, Output, Stdio};
use std::sync::OnceLock;
use std::thread;

/// The program, built where it is not there yet.
pub fn program() -> &'static Path {
    static PROGRAM: OnceLock<PathBuf> = OnceLock::new();
    PROGRAM.get_or_init(|| {
        let folder = Path::new(env!("CARGO_MANIFEST_DIR")).join("../../crates/listing");
        let program = folder.join("out/listing");
        if !program.exists() {
            // It is run too, on nothing.
            let run = Command::new("rt").arg("run").current_dir(&folder).stdin(Stdio::null()).output();
            let said = run.expect("rt on the PATH").stderr;
            assert!(program.exists(), "{}", String::from_utf8_lossy(&said));
        }
        program
    })
}

/// Inputs of up to so many bytes are taken by a pipe that nobody reads yet (Linux has at least this much).
const PIPE: usize = 4_096;

/// What it writes of an input that comes through a pipe, and how it ends.
pub fn run(input: &[u8]) -> Output {
    let mut child = Command::new(program())
        .stdin(Stdio::piped())
        .stdout(Stdio::piped())
        .stderr(Stdio::piped())
        .spawn()
        .expect("the program starts");
    let mut pipe = child.stdin.take().expect("a pipe");
    let mut feed = move || match pipe.write_all(input) {
        // It stops reading one byte past the limit, so that the pipe may break.
        Err(error) if error.kind() != ErrorKind::BrokenPipe => panic!("{error}"),
        _ => {}
    };
    thread::scope(|scope| {
        if input.len() <= PIPE {
            feed();
            drop(feed);
        } else {
            scope.spawn(feed);
        }
        child.wait_with_output().expect("the program ends")
    })
}

/// The listing of an input, with nothing said beside it.
pub fn listing(input: &[u8]) -> Vec<u8> {
    let Output { status, stdout, stderr } = run(input);
    assert!(status.success() && stderr.is_empty(), "{status}: {}", String::from_utf8_lossy(&stderr));
    stdout
}

/// The reference's, with tables of the same lengths.
pub fn expected(input: &[u8]) -> Vec<u8> {
    reference::listing(input, &reference::check(input, PROGRAM_LENGTHS))
}
