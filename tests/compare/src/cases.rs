//! The case corpus of `tests/cases`: inputs, each with the listing that the papers ask for (its README.md has the format).

use std::fs;
use std::path::PathBuf;

use reference::Lent;
pub use reference::PROGRAM_LENGTHS;

#[derive(Clone, Debug)]
pub struct Case {
    pub name: String,
    /// Rows of the token, node and answer tables, and bytes of the room.
    pub lengths: Lent,
    /// The sentence of the papers that the case checks.
    pub sentence: String,
    pub input: Vec<u8>,
    /// The listing, byte for byte.
    pub expected: Vec<u8>,
}

impl Case {
    /// The expected reply, and the number beside it (for an acceptance, that of the constants).
    pub fn reply(&self) -> (u32, u64) {
        reply(&self.expected).unwrap_or_else(|| panic!("{}: the expected listing begins with no reply", self.name))
    }
}

/// The rows that the tables hold after the check of a case, as `NAME.rows` gives them, if there is such a file.
pub fn rows(case: &Case) -> Option<String> {
    fs::read_to_string(folder().join(format!("{}.rows", case.name))).ok()
}

/// The reply that a listing begins with, and the number beside it.
fn reply(listing: &[u8]) -> Option<(u32, u64)> {
    let text = std::str::from_utf8(listing).ok()?;
    let words: Vec<&str> = text.lines().next()?.split(' ').collect();
    match words[..] {
        ["accepted", count] => Some((0, count.parse().ok()?)),
        ["refused", reply, "at", place] => Some((reply.parse().ok()?, place.parse().ok()?)),
        _ => None,
    }
}

/// The folder of the corpus.
pub fn folder() -> PathBuf {
    PathBuf::from(env!("CARGO_MANIFEST_DIR")).join("../cases")
}

/// Every case, in the order of the INDEX. Panics where the INDEX or a file is not as README.md says.
pub fn all() -> Vec<Case> {
    let folder = folder();
    let read = |name: String| fs::read(folder.join(&name)).unwrap_or_else(|e| panic!("{name}: {e}"));
    let index = String::from_utf8(read("INDEX".to_string())).expect("INDEX is no text");
    index
        .lines()
        .map(|line| {
            let columns: Vec<&str> = line.split('\t').collect();
            let [name, lent, fill, sentence] = columns[..] else { panic!("INDEX: not four columns: {line}") };
            let mut input = read(format!("{name}.exp"));
            if fill != "-" {
                let bytes: usize = fill.parse().unwrap_or_else(|_| panic!("INDEX: {name}: no number of bytes: {fill}"));
                assert!(input.len() <= bytes, "INDEX: {name}: the input is longer than {bytes} bytes");
                input.resize(bytes, b' ');
            }
            Case {
                name: name.to_string(),
                lengths: lengths(lent).unwrap_or_else(|| panic!("INDEX: {name}: no four lengths: {lent}")),
                sentence: sentence.to_string(),
                input,
                expected: read(format!("{name}.out")),
            }
        })
        .collect()
}

fn lengths(column: &str) -> Option<Lent> {
    if column == "-" {
        return Some(PROGRAM_LENGTHS);
    }
    let lengths = column.split(',').map(|n| n.parse().ok()).collect::<Option<Vec<usize>>>()?;
    lengths.try_into().ok()
}
