//! What is asked for on the command line.

use crate::forms::Form;
use crate::names;
use std::ffi::{OsStr, OsString};
use std::os::unix::ffi::OsStrExt;
use std::path::Path;
use woffulent::{Rows, MAX_STRING_BYTES};

pub const USAGE: &str = "usage: woffulent check [--explain | --json] [--rows T,N,A[,R]] FILE|DIR|- ..
       woffulent tables [--rows T,N,A[,R]] FILE|-
       woffulent --help | --version";

pub const HELP: &str = "woffulent checks EXPRESS schemas and evaluates their constants.

  woffulent check FILE|DIR|- ..   the listing of each file; of a folder, of all below it that end in .exp
  woffulent tables FILE|-         the listing, every row of the tables: report, token, node, answer; the room
  woffulent --help                this page
  woffulent --version             the version

  --explain          what is wrong with a refused file, in words, with its line and a mark under the place
  --json             an object on a line for each file
  --rows T,N,A[,R]   lend so many rows for tokens, nodes and answers (8192,8192,1024) and bytes for strings
                     (255 for each answer), or `any` for enough
  --                 what follows is no option
  -                  the standard input

The exit status is 0 if all files were accepted, 1 if some were refused, 2 if one could not be read, the
output could not be written, or the arguments made no sense. docs/USE.md has all the rest.
";

/// What is asked for.
pub enum Request {
    Help,
    Version,
    Run { form: Form, rows: Rows, inputs: Vec<OsString> },
}

/// Reads the arguments, or says in a sentence what is wrong with them.
pub fn read(mut arguments: impl Iterator<Item = OsString>) -> Result<Request, String> {
    let first = arguments.next().ok_or("a command is missing")?;
    match first.to_str() {
        Some("--help" | "-h" | "help") => Ok(Request::Help),
        Some("--version" | "-V") => Ok(Request::Version),
        Some("check") => inputs(Form::Listing, arguments),
        Some("tables") => one_file(inputs(Form::Tables, arguments)?),
        _ => Err(format!("no command is called {}", shown(&first))),
    }
}

fn one_file(request: Request) -> Result<Request, String> {
    match &request {
        Request::Run { inputs, .. } if inputs.len() > 1 => Err("`tables` takes one file".to_string()),
        Request::Run { inputs, .. } if inputs[0] != "-" && Path::new(&inputs[0]).is_dir() => {
            Err(format!("`tables` takes a file, and {} is a folder", shown(&inputs[0])))
        }
        _ => Ok(request),
    }
}

fn inputs(mut form: Form, mut arguments: impl Iterator<Item = OsString>) -> Result<Request, String> {
    let (mut rows, mut inputs, mut options) = (Rows::PROGRAM, Vec::new(), true);
    while let Some(argument) = arguments.next() {
        match argument.to_str() {
            Some("--") if options => options = false,
            Some("--help" | "-h") if options => return Ok(Request::Help),
            Some("--explain") if options => form = chosen(form, Form::Explain)?,
            Some("--json") if options => form = chosen(form, Form::Json)?,
            Some("--rows") if options => {
                let given = arguments.next().ok_or("`--rows` needs three or four numbers behind it, or `any`")?;
                rows = self::rows(&given)?;
            }
            Some(option) if options && option.len() > 1 && option.starts_with('-') => {
                return Err(format!("no option is called {}", shown(&argument)));
            }
            _ => inputs.push(argument),
        }
    }
    match inputs.iter().filter(|input| *input == "-").count() {
        _ if inputs.is_empty() => Err("no file is named; `-` is the standard input".to_string()),
        0 | 1 => Ok(Request::Run { form, rows, inputs }),
        _ => Err("`-` can stand once".to_string()),
    }
}

fn chosen(before: Form, form: Form) -> Result<Form, String> {
    match before {
        Form::Tables => Err("`tables` has one form; `--explain` and `--json` go with `check`".to_string()),
        Form::Listing => Ok(form),
        _ if before == form => Ok(form),
        _ => Err("`--explain` and `--json` exclude each other; `--json` has the message".to_string()),
    }
}

/// Without a room of its own, one that is never too short for so many answers.
fn rows(given: &OsStr) -> Result<Rows, String> {
    let text = given.to_str().unwrap_or("");
    let numbers: Option<Vec<usize>> = text.split(',').map(|number| number.parse().ok()).collect();
    match numbers.as_deref() {
        _ if text == "any" => Ok(Rows::ANY),
        Some(&[tokens, nodes, answers, room]) => Ok(Rows { tokens, nodes, answers, room }),
        Some(&[tokens, nodes, answers]) => {
            Ok(Rows { tokens, nodes, answers, room: answers.saturating_mul(MAX_STRING_BYTES) })
        }
        _ => Err(format!(
            "`--rows` needs three or four numbers with commas between them, or `any`, and not {}",
            shown(given)
        )),
    }
}

fn shown(argument: &OsStr) -> String {
    format!("`{}`", names::shown(argument.as_bytes()))
}
