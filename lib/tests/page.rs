//! The worked calls of `docs/USE.md`, compiled and run as the page says.

mod common;

use common::{folder, run_c, top, written, ARCHIVE};
use std::fs;
use std::process::Command;

/// The blocks of a language on the page, each with the block of text that follows it.
fn block(language: &str) -> (String, String) {
    let page = fs::read_to_string(top().join("docs/USE.md")).expect("the page");
    let start = page.find(&format!("```{language}\n")).unwrap_or_else(|| panic!("no block of {language}"));
    let inner = |text: &str| {
        text.split_once('\n').and_then(|(_, rest)| rest.split_once("```")).map(|(block, _)| block.to_string())
    };
    let rest = &page[start..];
    let text = rest.find("```text\n").map_or("", |at| &rest[at..]);
    (inner(rest).expect("a block"), inner(text).unwrap_or_default())
}

#[test]
fn the_call_in_c_prints_what_the_page_says() {
    let (source, printed) = block("c");
    let folder = folder("page-c");
    fs::write(folder.join("example.c"), source).expect("a file");
    assert_eq!(run_c("cc", "-std=c99", &folder.join("example.c"), &folder), printed);
}

/// As a user does it: a package of its own, with the dependency that the page gives.
#[test]
fn the_call_in_rust_prints_what_the_page_says() {
    let (source, printed) = block("rust");
    let (dependency, _) = block("toml");
    let folder = folder("page-rust");
    let package = "[package]\nname = \"example\"\nversion = \"0.1.0\"\nedition = \"2021\"\n\n[workspace]\n\n";
    let top = top().canonicalize().expect("the repository");
    let dependency = dependency.replace("/path/to/woffulent", top.to_str().expect("a path of letters"));
    fs::write(folder.join("Cargo.toml"), package.to_string() + &dependency).expect("a file");
    fs::create_dir(folder.join("src")).expect("a folder");
    fs::write(folder.join("src/main.rs"), source).expect("a file");
    let output = Command::new("cargo")
        .args(["run", "--quiet", "--release", "--offline"])
        .current_dir(&folder)
        .env("CARGO_TARGET_DIR", folder.join("target"))
        .env("WOFFULENT_LIB_DIR", ARCHIVE)
        .output();
    assert_eq!(written(&output.expect("cargo on the PATH")), printed);
}
