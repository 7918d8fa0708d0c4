//! The pages of rules and definitions are held to each other and to the crates.

use std::collections::BTreeSet;
use std::fs;
use std::path::{Path, PathBuf};

fn top() -> PathBuf {
    Path::new(env!("CARGO_MANIFEST_DIR")).join("../..")
}

fn page(name: &str) -> String {
    fs::read_to_string(top().join("docs").join(name)).unwrap_or_else(|e| panic!("{name}: {e}"))
}

/// A rule as its part and its number, if the word is one.
fn rule(word: &str) -> Option<(char, u32)> {
    let part = word.chars().next().filter(|part| "TGNKR".contains(*part))?;
    Some((part, word[1..].parse().ok()?))
}

/// The rules that a text cites, and those between two with `to` between them.
fn cited(text: &str) -> BTreeSet<(char, u32)> {
    let words: Vec<&str> = text.split(|c: char| !c.is_alphanumeric()).filter(|word| !word.is_empty()).collect();
    let mut rules: BTreeSet<_> = words.iter().filter_map(|word| rule(word)).collect();
    for three in words.windows(3).filter(|three| three[1] == "to") {
        if let (Some((part, low)), Some((other, high))) = (rule(three[0]), rule(three[2])) {
            assert_eq!(part, other, "{} to {}", three[0], three[2]);
            rules.extend((low..=high).map(|number| (part, number)));
        }
    }
    rules
}

/// The rules of LANGUAGE.md: `**T1.**` at the start of a paragraph, or `G3` at that of a line of the grammar.
fn rules() -> BTreeSet<(char, u32)> {
    let page = page("LANGUAGE.md");
    let firsts = page.lines().filter_map(|line| line.split(' ').next());
    firsts.filter_map(|word| rule(word.trim_start_matches("**").trim_end_matches(".**"))).collect()
}

#[test]
fn numbers_of_rules_have_no_gap() {
    let rules = rules();
    for part in "TGNKR".chars() {
        let last = rules.iter().filter(|rule| rule.0 == part).map(|rule| rule.1).max().expect("a rule in each part");
        let missing: Vec<u32> = (1..=last).filter(|number| !rules.contains(&(part, *number))).collect();
        assert!(missing.is_empty(), "{part}: no rule {missing:?}");
    }
}

#[test]
fn each_rule_has_its_definition_and_no_other_is_cited() {
    let (rules, cited) = (rules(), cited(&page("DEFINITIONS.md")));
    assert_eq!(rules.difference(&cited).collect::<Vec<_>>(), Vec::<&(char, u32)>::new(), "not in DEFINITIONS.md");
    assert_eq!(cited.difference(&rules).collect::<Vec<_>>(), Vec::<&(char, u32)>::new(), "not in LANGUAGE.md");
}

/// The file of a module as DEFINITIONS.md cites it, `Tokens/Lexis` or `ebnf/proofs/Exact`.
fn file(module: &str) -> PathBuf {
    let mut parts: Vec<&str> = module.split('/').collect();
    let below = [
        "ebnf", "relations", "columns", "examples", "theorems", "bounds", "demands", "record_demands", "stages",
        "listing_parts", "strings", "string_laws", "string_places", "operations", "evaluate", "schemas", "constants",
    ];
    let library = if below.contains(&parts[0]) { parts.remove(0) } else { "express" };
    let folder = if parts[0] == "proofs" { parts.remove(0) } else { "specs" };
    top().join("crates").join(library).join(folder).join(parts.join("/")).with_extension("antt")
}

/// Whether a module makes a name public: `pub NAME`, `pub record NAME` or `pub data NAME`.
fn declares(text: &str, name: &str) -> bool {
    let words: Vec<&str> = text.split_whitespace().collect();
    let public =
        |at: usize| words[at] == "pub" || (at > 0 && words[at - 1] == "pub" && ["record", "data"].contains(&words[at]));
    (1..words.len()).any(|at| words[at] == name && public(at - 1))
}

#[test]
fn definitions_stand_where_the_page_says() {
    let page = page("DEFINITIONS.md");
    let mut lost = Vec::new();
    for citation in page.split('`').skip(1).step_by(2).filter(|text| !text.ends_with('/') && text.contains('/')) {
        if ["crates/", "docs/"].iter().any(|folder| citation.starts_with(folder)) {
            continue;
        }
        let (module, name) = citation.split_once('.').unwrap_or((citation, ""));
        let text = fs::read_to_string(file(module)).unwrap_or_default();
        if text.is_empty() || !(name.is_empty() || declares(&text, name)) {
            lost.push(citation);
        }
    }
    assert!(lost.is_empty(), "not there: {lost:#?}");
}
