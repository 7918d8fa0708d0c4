//! Runs the command as a user would.
#![allow(dead_code)]

use std::ffi::{c_char, c_int, c_uint, CString, OsStr};
use std::fs::{self, File, OpenOptions};
use std::io::{ErrorKind, Write};
use std::os::unix::fs::OpenOptionsExt;
use std::path::{Path, PathBuf};
use std::process::{Child, Command, Output, Stdio};
use std::thread;
use std::time::Duration;

extern "C" {
    fn mkfifo(path: *const c_char, mode: c_uint) -> c_int;
}

/// To open a pipe that nobody reads is an error then, and not a wait.
const AT_ONCE: c_int = 0o4000;

pub const ACCEPTED: &str = "SCHEMA Press;\nCONSTANT\n  step : INTEGER := -7 DIV 2;\nEND_CONSTANT;\nEND_SCHEMA;\n";
pub const ACCEPTED_LISTING: &str = "accepted 1\npress.step = -4\n";
pub const REFUSED: &str = "SCHEMA Press;\nCONSTANT\n  step : INTEGER := stepp;\nEND_CONSTANT;\nEND_SCHEMA;\n";
pub const REFUSED_LISTING: &str = "refused 10 at 43\n";

pub fn command() -> Command {
    Command::new(env!("CARGO_BIN_EXE_woffulent"))
}

/// Runs it with nothing on its standard input.
pub fn run<A: AsRef<OsStr>>(arguments: impl IntoIterator<Item = A>) -> Output {
    command().args(arguments).stdin(Stdio::null()).output().expect("the command starts")
}

/// Runs it with some bytes on its standard input.
pub fn run_on(arguments: &[&str], input: &[u8]) -> Output {
    let mut child = command()
        .args(arguments)
        .stdin(Stdio::piped())
        .stdout(Stdio::piped())
        .stderr(Stdio::piped())
        .spawn()
        .expect("the command starts");
    let mut pipe = child.stdin.take().expect("a pipe");
    thread::scope(|scope| {
        // It stops reading one byte past the limit, so that the pipe may break.
        scope.spawn(move || match pipe.write_all(input) {
            Err(error) if error.kind() != ErrorKind::BrokenPipe => panic!("{error}"),
            _ => drop(pipe),
        });
        child.wait_with_output().expect("the command ends")
    })
}

/// What it wrote, what it said, and its exit status.
pub fn told(output: &Output) -> (String, String, i32) {
    let text = |bytes: &[u8]| String::from_utf8_lossy(bytes).into_owned();
    (text(&output.stdout), text(&output.stderr), output.status.code().expect("it ends by itself"))
}

/// An empty folder for a test.
pub fn folder(name: &str) -> PathBuf {
    let folder = Path::new(env!("CARGO_TARGET_TMPDIR")).join(name);
    let _ = fs::remove_dir_all(&folder);
    fs::create_dir_all(&folder).expect("a folder");
    folder
}

/// A file in a folder, and its path as text.
pub fn file(folder: &Path, name: &str, text: &str) -> String {
    let path = folder.join(name);
    fs::create_dir_all(path.parent().expect("a folder")).expect("a folder");
    fs::write(&path, text).expect("a file");
    path.to_str().expect("a path of letters").to_string()
}

/// A pipe in a folder, and its path as text.
pub fn pipe(folder: &Path, name: &str) -> String {
    let path = folder.join(name).to_str().expect("a path of letters").to_string();
    let name = CString::new(path.as_str()).expect("a name without a zero");
    // SAFETY: the call reads a string that ends in a zero.
    assert_eq!(unsafe { mkfifo(name.as_ptr(), 0o600) }, 0);
    path
}

/// The end to write to of a pipe, once the command has opened the other; none where it ends before.
pub fn opened(path: &str, child: &mut Child) -> Option<File> {
    while child.try_wait().expect("a status").is_none() {
        if let Ok(end) = OpenOptions::new().write(true).custom_flags(AT_ONCE).open(path) {
            return Some(end);
        }
        thread::sleep(Duration::from_millis(1));
    }
    None
}
