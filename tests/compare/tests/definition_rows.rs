//! The rows that the proved definitions are shown to give (crates/examples/proofs/FileRows.antt) are those of the corpus.

use std::path::Path;

/// The body of a definition.
fn body<'a>(text: &'a str, name: &str) -> &'a str {
    let start = format!("\n{name} =\n");
    let (_, body) = text.split_once(&start).unwrap_or_else(|| panic!("no {name}"));
    body.split_once("\n\n").expect("a definition ends").0
}

/// The literals of a definition: a line each, or, where it is made of `bytes`, joined.
fn text_of(text: &str, name: &str) -> String {
    let body = body(text, name);
    let end = if body.trim_start().starts_with("bytes ") { "" } else { "\n" };
    body.split('"').skip(1).step_by(2).flat_map(|literal| [literal, end]).collect()
}

#[test]
fn the_rows_of_the_definitions_are_the_corpus() {
    let path = Path::new(env!("CARGO_MANIFEST_DIR")).join("../../crates/examples/proofs/FileRows.antt");
    let text = std::fs::read_to_string(path).expect("FileRows.antt");
    for (name, tables) in [
        ("rows-all-kinds", &["tokens", "nodes", "answers"][..]),
        ("rows-two-schemas", &["nodes", "answers"]),
        ("string-room-rows", &["answers", "room"]),
        ("string-room-empty", &["answers", "room"]),
    ] {
        let definition = name.replace('-', "_");
        let case = compare::cases::all().into_iter().find(|case| case.name == name).expect("in the corpus");
        assert_eq!(text_of(&text, &definition).as_bytes(), case.input, "{name}: input");
        let rows: String = tables.iter().map(|table| text_of(&text, &format!("{definition}_{table}"))).collect();
        assert_eq!(Some(rows), compare::cases::rows(&case), "{name}: rows");
    }
}
