//! Compiles and runs programs that use the library.

use std::fs;
use std::path::{Path, PathBuf};
use std::process::{Command, Output};

/// The folder of the archive that this crate is linked with.
pub const ARCHIVE: &str = env!("WOFFULENT_LIB_DIR");

pub fn top() -> PathBuf {
    Path::new(env!("CARGO_MANIFEST_DIR")).join("..")
}

/// An empty folder for a test.
pub fn folder(name: &str) -> PathBuf {
    let folder = Path::new(env!("CARGO_TARGET_TMPDIR")).join(name);
    let _ = fs::remove_dir_all(&folder);
    fs::create_dir_all(&folder).expect("a folder");
    folder
}

/// What a program writes that ends well.
pub fn written(output: &Output) -> String {
    let said = String::from_utf8_lossy(&output.stderr);
    assert!(output.status.success(), "{}: {said}", output.status);
    String::from_utf8_lossy(&output.stdout).into_owned()
}

/// Compiles a program by a standard of C or C++, with warnings as errors, links it with the archive and runs it in a folder.
pub fn run_c(compiler: &str, standard: &str, source: &Path, folder: &Path) -> String {
    let program = folder.join("program");
    let compiled = Command::new(compiler)
        .args([standard, "-Wall", "-Wextra", "-Werror", "-pedantic", "-I"])
        .arg(top().join("include"))
        .arg(source)
        .arg("-L")
        .arg(ARCHIVE)
        .args(["-lwoffulent", "-o"])
        .arg(&program)
        .output()
        .unwrap_or_else(|error| panic!("{compiler}: {error}"));
    written(&compiled);
    written(&Command::new(program).current_dir(folder).output().expect("the program starts"))
}
