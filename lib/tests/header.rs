//! The numbers of `include/woffulent.h` and of this crate are those of the Rattle crate `codes`.

use std::collections::BTreeMap;
use std::fs;
use std::path::{Path, PathBuf};
use woffulent::{AnswerKind, End, Logical, NodeKind, Reply, TokenKind};

type Numbers = BTreeMap<String, u64>;

fn top() -> PathBuf {
    Path::new(env!("CARGO_MANIFEST_DIR")).join("..")
}

fn read(path: &str) -> String {
    fs::read_to_string(top().join(path)).unwrap_or_else(|error| panic!("{path}: {error}"))
}

/// The constants of a module of `codes`, `pub const NAME: TYPE = NUMBER;`.
fn codes(module: &str) -> Numbers {
    let text = read(&format!("crates/codes/src/{module}.rt"));
    let lines = text.lines().filter_map(|line| line.strip_prefix("pub const ")?.strip_suffix(';'));
    lines.map(|line| split(line, ": ")).collect()
}

/// A name, up to a mark, and the number behind the last space.
fn split(line: &str, mark: &str) -> (String, u64) {
    let name = line.split(mark).next().unwrap_or(line).trim();
    let number = line.rsplit(' ').next().unwrap_or("").parse();
    (name.to_string(), number.unwrap_or_else(|_| panic!("no number: {line}")))
}

/// The constants of an enum of the header, without `WOFFULENT_`.
fn header(name: &str) -> Numbers {
    let text = read("include/woffulent.h");
    let start = text.find(&format!("enum woffulent_{name} {{")).unwrap_or_else(|| panic!("no enum {name}"));
    let body = text[start..].split("};").next().unwrap_or("");
    let lines = body.lines().skip(1).map(|line| line.split("/*").next().unwrap_or("").trim().trim_end_matches(','));
    let named = lines.filter_map(|line| line.strip_prefix("WOFFULENT_"));
    named.map(|line| split(line, " = ")).collect()
}

fn prefixed(prefix: &str, numbers: Numbers) -> Numbers {
    numbers.into_iter().map(|(name, number)| (format!("{prefix}{name}"), number)).collect()
}

/// Those of an enum of this crate.
fn here<T: Copy>(all: &[T], name: fn(T) -> &'static str, number: fn(T) -> u8) -> Numbers {
    all.iter().map(|&one| (name(one).to_string(), number(one).into())).collect()
}

#[test]
fn the_header_has_the_numbers_of_codes() {
    assert_eq!(header("reply"), codes("replies"));
    assert_eq!(header("token"), prefixed("TOKEN_", codes("tokens")));
    assert_eq!(header("node"), prefixed("NODE_", codes("nodes")));
    let (logicals, kinds): (Numbers, Numbers) =
        codes("answers").into_iter().partition(|(name, _)| ["FALSE", "UNKNOWN", "TRUE"].contains(&name.as_str()));
    assert_eq!(header("logical"), prefixed("LOGICAL_", logicals));
    let mut answers = prefixed("ANSWER_", kinds);
    answers.extend(prefixed("END_", codes("ends")));
    assert_eq!(header("answer"), answers);
    for limit in ["BYTES", "BITS", "STRING_BYTES"] {
        let line = format!("#define WOFFULENT_{limit} {}", codes("limits")[limit]);
        assert!(read("include/woffulent.h").lines().any(|found| found == line), "{line}");
    }
}

#[test]
fn this_crate_has_the_numbers_of_codes() {
    assert_eq!(here(Reply::ALL, Reply::name, Reply::number), codes("replies"));
    assert_eq!(here(End::ALL, End::name, End::number), codes("ends"));
    assert_eq!(here(NodeKind::ALL, NodeKind::name, NodeKind::number), codes("nodes"));
    let mut tokens = here(TokenKind::ALL, TokenKind::name, TokenKind::number);
    tokens.insert("NONE".to_string(), 0);
    assert_eq!(tokens, codes("tokens"));
    let mut answers = here(AnswerKind::ALL, AnswerKind::name, AnswerKind::number);
    let logicals = [Logical::False, Logical::Unknown, Logical::True];
    answers.extend(logicals.map(|logical| (logical.to_string(), logical as u64)));
    assert_eq!(answers, codes("answers"));
    assert_eq!(codes("limits")["BYTES"], woffulent::MAX_BYTES as u64);
    assert_eq!(codes("limits")["STRING_BYTES"], woffulent::MAX_STRING_BYTES as u64);
}
