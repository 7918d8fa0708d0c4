//! Reads a file from standard input and prints its listing.
#![forbid(unsafe_code)]

use std::io::{self, Read, Write};
use std::process::ExitCode;

fn run() -> io::Result<()> {
    let mut bytes = Vec::new();
    // One byte over the limit is enough to know that the input is too long.
    let limit = reference::MAX_BYTES as u64 + 1;
    io::stdin().lock().take(limit).read_to_end(&mut bytes)?;
    let checked = reference::check(&bytes, reference::PROGRAM_LENGTHS);
    io::stdout().lock().write_all(&reference::listing(&bytes, &checked))
}

fn main() -> ExitCode {
    match run() {
        Ok(()) => ExitCode::SUCCESS,
        Err(error) => {
            // Nothing is left to do where standard error is closed too.
            let _ = writeln!(io::stderr(), "reference: {error}");
            ExitCode::FAILURE
        }
    }
}
