//! What stands in the repository is what the tool writes, and the list is that of the definitions.

use codes::{Terminals, FIRST_CODE};
use std::fs;
use std::path::Path;

fn text(path: &str) -> String {
    let file = Path::new(env!("CARGO_MANIFEST_DIR")).join("../..").join(path);
    fs::read_to_string(&file).unwrap_or_else(|error| panic!("{}: {error}", file.display()))
}

fn definitions() -> String {
    text("crates/express/specs/Tokens/Terminal.antt")
}

/// The strings of a list of the definitions.
fn strings(definitions: &str, name: &str) -> Vec<String> {
    let from = definitions.find(&format!("\n{name} =\n")).unwrap_or_else(|| panic!("no definition of `{name}`"));
    let list = definitions[from..].split("[])").next().expect("a list ends");
    list.split('"').skip(1).step_by(2).map(|spelling| spelling.replace("\\\\", "\\")).collect()
}

#[test]
fn files_are_what_the_tool_writes() {
    for (path, expected) in codes::outputs() {
        assert!(text(path) == expected, "{path} is not what the tool writes: run `cargo run -p codes`");
    }
}

#[test]
fn list_is_that_of_the_definitions() {
    let terminals = Terminals::listed();
    let symbols: Vec<String> = terminals.symbols.iter().map(|(spelling, _)| spelling.clone()).collect();
    assert_eq!(symbols, strings(&definitions(), "symbols"));
    assert_eq!(terminals.words, strings(&definitions(), "reserved"));
}

/// The definitions name the terminals of the grammar, in small letters or as the word is spelled.
#[test]
fn names_of_the_definitions_have_their_codes() {
    let terminals = Terminals::listed();
    let names = terminals.symbols.iter().map(|(_, name)| name.to_lowercase()).chain(terminals.words.iter().cloned());
    let mut known = 0;
    for (i, name) in names.enumerate() {
        let start = format!("\n{name} = ");
        if let Some(from) = definitions().find(&start) {
            let code = definitions()[from + start.len()..].split(' ').next().map(str::to_string);
            assert_eq!(code, Some((FIRST_CODE + i).to_string()), "the code of `{name}`");
            known += 1;
        }
    }
    assert!(known > 50, "only {known} names of the definitions are known");
}

#[test]
fn hash_has_a_slot_for_each_spelling() {
    let terminals = Terminals::listed();
    let mut found: Vec<u8> = codes::Hash::of(&terminals).slots.into_iter().filter(|&code| code != 0).collect();
    found.sort();
    let codes: Vec<u8> = (0..terminals.spellings().len()).map(|i| (FIRST_CODE + i) as u8).collect();
    assert_eq!(found, codes);
}
