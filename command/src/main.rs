//! The command `woffulent`: checks EXPRESS files with the proved checker.
#![forbid(unsafe_code)]

mod arguments;
mod forms;
mod inputs;
mod names;
mod progress;
mod run;
mod source_line;
mod totals;

use arguments::Request;
use std::io::{self, Write};
use std::process::ExitCode;

/// Every file was accepted.
pub const ACCEPTED: u8 = 0;
/// Some file was refused.
pub const REFUSED: u8 = 1;
/// A file could not be read, the output not be written, or the arguments made no sense.
pub const FAILED: u8 = 2;

fn main() -> ExitCode {
    let status = match arguments::read(std::env::args_os().skip(1)) {
        Ok(Request::Help) => said(arguments::HELP),
        Ok(Request::Version) => said(concat!("woffulent ", env!("CARGO_PKG_VERSION"), "\n")),
        Ok(Request::Run { form, rows, inputs }) => run::run(&inputs::found(inputs), form, rows),
        Err(mistake) => {
            run::complain(format!("woffulent: {mistake}\n{}\n", arguments::USAGE).as_bytes());
            FAILED
        }
    };
    ExitCode::from(status)
}

fn said(text: &str) -> u8 {
    let written = io::stdout().write_all(text.as_bytes()).and_then(|()| io::stdout().flush());
    written.map_or(FAILED, |()| ACCEPTED)
}
