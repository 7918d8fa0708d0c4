//! Writes the random files of some seeds, each with the listing that the program must print for it.
//!
//! `random_files SEED` writes one file to standard output; `random_files FIRST COUNT DIR` writes `SEED.exp` and
//! `SEED.txt` for each seed and prints the tally.

use compare::random::{file, plan, Tally};
use reference::PROGRAM_LENGTHS;
use std::io::Write;
use std::path::Path;

fn main() -> std::io::Result<()> {
    let args: Vec<String> = std::env::args().skip(1).collect();
    match args.as_slice() {
        [seed] => std::io::stdout().write_all(&file(number(seed))),
        [first, count, dir] => write_all(number(first), number(count), Path::new(dir)),
        _ => usage(),
    }
}

fn number(arg: &str) -> u64 {
    arg.parse().unwrap_or_else(|_| usage())
}

fn usage() -> ! {
    eprintln!("usage: random_files SEED | random_files FIRST COUNT DIR");
    std::process::exit(2)
}

fn write_all(first: u64, count: u64, dir: &Path) -> std::io::Result<()> {
    std::fs::create_dir_all(dir)?;
    let mut tally = Tally::default();
    for seed in first..first + count {
        let bytes = file(seed);
        let checked = reference::check(&bytes, PROGRAM_LENGTHS);
        std::fs::write(dir.join(format!("{seed}.exp")), &bytes)?;
        std::fs::write(dir.join(format!("{seed}.txt")), reference::listing(&bytes, &checked))?;
        tally.add(plan(seed).0, &checked);
    }
    println!("{tally}");
    Ok(())
}
