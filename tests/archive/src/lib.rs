//! For build scripts: links the archive of a Rattle crate.
//!
//! It is the one in the folder that a variable names, as `WOFFULENT_LIB_DIR` for the crate `woffulent`, or else one that `rt` proves and builds in the
//! crate's folder. That one is linked from a copy: `rt` writes it anew whenever it is run.

use std::fs::{self, File};
use std::path::{Path, PathBuf};
use std::process::{exit, Command};
use std::{env, io};

/// What a crate is proved and compiled from.
const PARTS: [&str; 3] = ["src", "specs", "proofs"];

/// Links the archive of a crate, and gives the folder where it lies; a build script that cannot ends with the reason.
pub fn link(name: &str) -> PathBuf {
    let variable = format!("{}_LIB_DIR", name.to_uppercase());
    println!("cargo::rerun-if-env-changed={variable}");
    let linked = match env::var_os(&variable) {
        Some(folder) => given(PathBuf::from(folder), name).map_err(|reason| format!("{variable} is set, and {reason}")),
        None => {
            eprintln!("{variable} is not set, so that the library is built with `rt`");
            built(name)
        }
    };
    let folder = linked.unwrap_or_else(|reason| {
        eprintln!("{reason}");
        exit(1)
    });
    println!("cargo::rustc-link-search=native={}", folder.display());
    println!("cargo::rustc-link-lib=static={name}");
    folder
}

fn given(folder: PathBuf, name: &str) -> Result<PathBuf, String> {
    let archive = folder.join(format!("lib{name}.a"));
    if !archive.is_file() {
        return Err(format!("{} is not there", archive.display()));
    }
    println!("cargo::rerun-if-changed={}", archive.display());
    Ok(folder)
}

fn built(name: &str) -> Result<PathBuf, String> {
    let root =
        Path::new(env!("CARGO_MANIFEST_DIR")).ancestors().nth(2).expect("tests/archive stands in the repository");
    for source in sources(root).map_err(|error| format!("crates/: {error}"))? {
        println!("cargo::rerun-if-changed={}", source.display());
    }
    let target = variable("TARGET")?;
    if !(target.starts_with("x86_64") && target.contains("linux")) {
        return Err(format!(
            "the proved functions are compiled for x86-64 Linux alone, and this build is for {target}"
        ));
    }
    let out = PathBuf::from(variable("OUT_DIR")?);
    let file = format!("lib{name}.a");
    let archive = root.join("crates").join(name).join("out").join(&file);
    // Cargo has one build at a time in its own folder; a build in another folder waits here.
    let _lock = locked(&root.join("target")).map_err(|error| format!("cannot lock target/: {error}"))?;
    prove(root, name)?;
    fs::copy(&archive, out.join(&file)).map_err(|error| format!("{}: {error}", archive.display()))?;
    Ok(out)
}

/// The files and folders of all crates, without what `rt` writes beside them.
fn sources(root: &Path) -> io::Result<Vec<PathBuf>> {
    let mut sources = vec![root.join("crates.txt")];
    for entry in fs::read_dir(root.join("crates"))? {
        let folder = entry?.path();
        sources.extend(PARTS.map(|part| folder.join(part)).into_iter().filter(|part| part.exists()));
    }
    Ok(sources)
}

fn variable(name: &str) -> Result<String, String> {
    env::var(name).map_err(|_| format!("cargo gives no {name}"))
}

/// Held as long as the file is open.
fn locked(folder: &Path) -> io::Result<File> {
    fs::create_dir_all(folder)?;
    let file = File::create(folder.join("archive.lock"))?;
    file.lock()?;
    Ok(file)
}

fn prove(root: &Path, name: &str) -> Result<(), String> {
    let folder = root.join("crates").join(name);
    let run = Command::new("rt").arg("lib").current_dir(&folder).output();
    let output = run.map_err(|error| match error.kind() {
        io::ErrorKind::NotFound => "the proved functions are built by `rt`, which is not on the PATH".to_string(),
        _ => format!("rt: {error}"),
    })?;
    if output.status.success() {
        return Ok(());
    }
    let said = [output.stdout, output.stderr].concat();
    Err(format!("{}`rt lib` in {} failed ({})", String::from_utf8_lossy(&said), folder.display(), output.status))
}
