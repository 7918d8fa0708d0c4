//! The pages for users: each command on them writes what they say; and the examples have their listings.

mod common;

use common::{run, told};
use std::fs;
use std::path::{Path, PathBuf};
use std::process::Command;

fn top() -> PathBuf {
    Path::new(env!("CARGO_MANIFEST_DIR")).join("..")
}

/// Runs a line in a shell, at the top of the repository, with the command on the PATH.
fn shell(line: &str) -> String {
    let bin = Path::new(env!("CARGO_BIN_EXE_woffulent")).parent().expect("a folder");
    let path = std::env::join_paths([bin.as_os_str()].into_iter().map(PathBuf::from).chain(paths())).expect("a PATH");
    let output = Command::new("sh").args(["-c", line]).current_dir(top()).env("PATH", path).output();
    told(&output.expect("a shell")).0
}

fn paths() -> Vec<PathBuf> {
    std::env::var_os("PATH").map(|paths| std::env::split_paths(&paths).collect()).unwrap_or_default()
}

/// The commands in the blocks of a page, `$ COMMAND`, each with the lines that follow.
fn commands(page: &str) -> Vec<(String, String)> {
    let text = fs::read_to_string(top().join(page)).unwrap_or_else(|error| panic!("{page}: {error}"));
    let blocks = text.split("```console\n").skip(1).filter_map(|rest| rest.split("```").next());
    let exchanges = blocks.flat_map(|block| block.split("$ ").skip(1)).filter_map(|lines| lines.split_once('\n'));
    exchanges.map(|(command, output)| (command.to_string(), output.to_string())).collect()
}

#[test]
fn the_commands_on_the_pages_write_what_the_pages_say() {
    for (page, fewest) in [("docs/USE.md", 4), ("README.md", 2)] {
        let commands = commands(page);
        assert!(commands.len() >= fewest, "{page}");
        for (command, output) in commands {
            assert_eq!(shell(&command), output, "{page}: {command}");
        }
    }
}

#[test]
fn the_examples_have_their_listings() {
    let files = fs::read_dir(top().join("examples")).expect("examples").map(|entry| entry.expect("an entry").path());
    let schemas: Vec<PathBuf> = files.filter(|path| path.extension().is_some_and(|end| end == "exp")).collect();
    assert_eq!(schemas.len(), 4);
    for schema in schemas {
        let listing = fs::read_to_string(schema.with_extension("out")).expect("a listing");
        let name = schema.to_str().expect("a path of letters");
        assert_eq!(told(&run(["check", name])), (listing, String::new(), 0), "{name}");
    }
}
