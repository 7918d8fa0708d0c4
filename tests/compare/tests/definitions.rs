//! The files that the proved definitions are run on by computation (crates/examples/proofs/Files.antt) are those of the corpus, with its listings.

use std::collections::HashMap;
use std::path::Path;

/// A file as Files.antt writes it: its name in the corpus, the lengths of the tables and of the room, its text and its listing.
struct Written {
    name: String,
    lengths: Vec<usize>,
    text: String,
    listing: String,
}

/// The strings of one list, and what follows them.
fn literals(text: &str) -> (Vec<&str>, &str) {
    let text = text.trim_start();
    if let Some(rest) = text.strip_prefix("[]") {
        return (Vec::new(), rest);
    }
    let mut rest = text.strip_prefix('(').expect("a list or []");
    let mut found = Vec::new();
    loop {
        rest = rest.trim_start_matches([' ', '\n', '∷']);
        if let Some(after) = rest.strip_prefix("[])") {
            return (found, after);
        }
        let (literal, after) = rest.strip_prefix('"').and_then(|r| r.split_once('"')).expect("a literal");
        found.push(literal);
        rest = after;
    }
}

fn lines(list: &[&str]) -> String {
    list.iter().map(|line| format!("{line}\n")).collect()
}

fn written() -> Vec<Written> {
    let path = Path::new(env!("CARGO_MANIFEST_DIR")).join("../../crates/examples/proofs/Files.antt");
    let text = std::fs::read_to_string(path).expect("Files.antt");
    let (_, files) = text.split_once("files =\n").expect("the list of files");
    files
        .split("    -- ")
        .skip(1)
        .map(|entry| {
            let (name, rest) = entry.split_once('\n').expect("a name");
            let rest = rest.trim_start().strip_prefix("run ").expect("run");
            let numbers: Vec<&str> = rest.splitn(5, ' ').collect();
            let lengths = numbers[..4].iter().map(|n| n.parse().expect("a length")).collect();
            let (head, rest) = literals(numbers[4]);
            let (tail, rest) = literals(rest);
            let (out, _) = literals(rest);
            Written { name: name.to_string(), lengths, text: lines(&head) + &tail.concat(), listing: lines(&out) }
        })
        .collect()
}

#[test]
fn the_files_of_the_definitions_are_the_corpus() {
    let corpus: HashMap<String, _> = compare::cases::all().into_iter().map(|case| (case.name.clone(), case)).collect();
    let written = written();
    assert!(written.len() >= 20, "only {} files", written.len());
    for file in &written {
        let case = corpus.get(&file.name).unwrap_or_else(|| panic!("{}: not in the corpus", file.name));
        assert_eq!(file.lengths, case.lengths, "{}: lengths", file.name);
        assert_eq!(file.text.as_bytes(), case.input, "{}: input", file.name);
        assert_eq!(file.listing.as_bytes(), case.expected, "{}: listing", file.name);
    }
}
