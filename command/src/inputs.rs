//! The files to check: those named, and those of the folders named.

use std::ffi::OsString;
use std::fs::{self, File};
use std::io::{self, Read};
use std::os::unix::ffi::OsStrExt;
use std::path::{Path, PathBuf};
use woffulent::MAX_BYTES;

/// A file to check, or why there is none.
pub struct Input {
    name: PathBuf,
    fault: Option<String>,
}

impl Input {
    fn new(name: PathBuf) -> Self {
        Input { name, fault: None }
    }

    /// The name as bytes, as it was given.
    pub fn bytes(&self) -> &[u8] {
        self.name.as_os_str().as_bytes()
    }

    /// Reads the file in place of what `buffer` holds, and no further than one byte past the limit: that is enough to refuse it.
    pub fn read(&self, buffer: &mut Vec<u8>) -> Result<(), String> {
        buffer.clear();
        if let Some(fault) = &self.fault {
            return Err(fault.clone());
        }
        let most = MAX_BYTES as u64 + 1;
        let read = match self.bytes() {
            b"-" => io::stdin().take(most).read_to_end(buffer),
            _ => File::open(&self.name).and_then(|file| file.take(most).read_to_end(buffer)),
        };
        read.map(|_| ()).map_err(|error| error.to_string())
    }
}

/// The inputs in the order of the arguments, those of a folder in the order of their names.
pub fn found(arguments: Vec<OsString>) -> Vec<Input> {
    let mut inputs = Vec::new();
    for argument in arguments.into_iter().map(PathBuf::from) {
        let named = inputs.len();
        if argument.as_os_str() != "-" && argument.is_dir() {
            folder(&argument, &mut inputs);
            if inputs.len() == named {
                inputs.push(Input { name: argument, fault: Some("no file in this folder ends in .exp".to_string()) });
            }
        } else {
            inputs.push(Input::new(argument));
        }
    }
    inputs
}

/// Adds the files of a folder and of those below it. A link to a folder is not followed, for it may lead back; what is no file, such as
/// a pipe that nobody writes to, is left out.
fn folder(path: &Path, inputs: &mut Vec<Input>) {
    let entries = fs::read_dir(path).and_then(|entries| entries.collect::<io::Result<Vec<_>>>());
    let mut entries = match entries {
        Ok(entries) => entries,
        Err(error) => return inputs.push(Input { name: path.to_path_buf(), fault: Some(error.to_string()) }),
    };
    entries.sort_by_key(fs::DirEntry::file_name);
    for entry in entries {
        let path = entry.path();
        let is_folder = entry.file_type().is_ok_and(|kind| kind.is_dir());
        let is_schema = path.extension().is_some_and(|end| end.eq_ignore_ascii_case("exp"));
        // A link that leads nowhere is taken, so that it is said.
        let is_file = || fs::metadata(&path).map_or(true, |target| target.is_file());
        if is_folder {
            folder(&path, inputs);
        } else if is_schema && is_file() {
            inputs.push(Input::new(path));
        }
    }
}
