//! The library from C.

mod common;

use common::{folder, run_c, ARCHIVE};
use std::path::{Path, PathBuf};
use std::process::Command;

fn source(name: &str) -> PathBuf {
    Path::new(env!("CARGO_MANIFEST_DIR")).join("tests/c").join(name)
}

#[test]
fn a_program_in_c_gets_what_the_header_says() {
    for standard in ["-std=c99", "-std=c11"] {
        assert_eq!(run_c("cc", standard, &source("check.c"), &folder("c")), "ok\n", "{standard}");
    }
}

#[test]
fn a_program_in_cpp_has_the_same_header() {
    if Command::new("c++").arg("--version").output().is_err() {
        return println!("not tried: no `c++` on the PATH");
    }
    for standard in ["-std=c++98", "-std=c++17"] {
        assert_eq!(run_c("c++", standard, &source("check.cpp"), &folder("cpp")), "ok\n", "{standard}");
    }
}

/// The archive asks for nothing but what the C library has.
#[test]
fn the_archive_needs_memset_alone() {
    let output = Command::new("nm").args(["-u", "-P"]).arg(Path::new(ARCHIVE).join("libwoffulent.a")).output();
    let listed = common::written(&output.expect("nm on the PATH"));
    let needed: Vec<&str> = listed.lines().filter_map(|line| line.trim_end().strip_suffix(" U")).collect();
    assert_eq!(needed, ["memset"], "{listed}");
}
