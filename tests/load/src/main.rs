//! The commands that put the proved code under load; docs/TESTS.md says what was seen.
#![forbid(unsafe_code)]

mod options;

use compare::hostile::{families, Family};
use compare::lanes;
use load::hostile::{head, Line, SIZES};
use load::{differences, memory, mutations, short, Fault};
use options::Options;
use std::fmt::Display;
use std::process::ExitCode;
use std::time::Instant;

const USAGE: &str = "\
usage: load COMMAND [--OPTION NUMBER]..
  differences  random files: --files 1000000 --seed 1 --from 0 (files already held) --listings 10 (one in so many) --jobs
  mutations    the corpus, changed: --every 1 (one in so many) --jobs
  short        all short expressions: --tokens 7 --jobs
  hostile      times of files built to take long: --milliseconds 200 (of runs of each)
  memory       the same files in a thread of 2 MiB, and the stack that they use
The status is 1 where the proved code and the reference differ, or a file takes too long or too much, and 2 where the options make no sense.";

/// Bytes of a small file.
const SMALL: usize = 1_024;

/// Why a command does not end well.
enum Failure {
    /// Something is wrong with the code.
    Found(String),
    /// The options make no sense.
    Usage(&'static str),
}

/// What a command says at its end.
type Said = Result<String, Failure>;

impl From<Fault> for Failure {
    fn from(fault: Fault) -> Self {
        Failure::Found(fault.to_string())
    }
}

fn told(found: Result<impl Display, Fault>) -> Said {
    Ok(found?.to_string())
}

fn differences(options: &Options) -> Said {
    let (seed, files) = (options.get("seed"), options.get("from")..options.get("files"));
    if files.is_empty() {
        return Err(Failure::Usage("no file is left: --from must be less than --files"));
    }
    if seed.checked_add(files.end).is_none() {
        return Err(Failure::Usage("--seed is too large for so many files"));
    }
    told(differences::run(differences::Run {
        seed,
        files,
        jobs: options.jobs(),
        listings: options.get("listings").max(1),
    }))
}

fn mutations(options: &Options) -> Said {
    told(mutations::run(options.get("every").max(1), options.jobs()))
}

/// As many tokens as texts can be counted of.
const MOST_TOKENS: u64 = 16;

fn short(options: &Options) -> Said {
    told(short::run(options.get("tokens").min(MOST_TOKENS) as u32, options.jobs()))
}

fn hostile(options: &Options) -> Said {
    println!("{}", head());
    let mut slow = 0;
    for family in families() {
        let line = Line::new(family, options.get("milliseconds") as f64 * 1e6)?;
        println!("{line}");
        slow += usize::from(line.is_slow());
    }
    match slow {
        0 => Ok("none is slow".into()),
        _ => Err(Failure::Found(format!("{slow} families are slow"))),
    }
}

fn memory(_: &Options) -> Said {
    println!("{:42}{:>20}{:>20}{:>20}", "bytes of stack, and with records", "1 KiB", "16 KiB", "64 KiB");
    let mut most = [0; 2];
    for Family { name, file } in families() {
        print!("{name:42}");
        for size in [SMALL, SIZES[0], SIZES[1]] {
            let file = file(size);
            memory::held_in_thread(name, &file)?;
            let used = memory::used(&file);
            print!("{:10}{:10}", used[0], used[1]);
            most = [0, 1].map(|call| most[call].max(used[call]));
        }
        println!();
    }
    let said = format!("at most {most:?} bytes of stack, of {:?} allowed", memory::LIMITS);
    match memory::is_within(most) {
        true => Ok(said),
        false => Err(Failure::Found(said)),
    }
}

/// A command's name, what it does, and its options.
type Command = (&'static str, fn(&Options) -> Said, Vec<(&'static str, u64)>);

fn commands() -> [Command; 5] {
    let jobs = ("jobs", lanes::cores() as u64);
    [
        ("differences", differences, vec![("files", 1_000_000), ("seed", 1), ("from", 0), ("listings", 10), jobs]),
        ("mutations", mutations, vec![("every", 1), jobs]),
        ("short", short, vec![("tokens", 7), jobs]),
        ("hostile", hostile, vec![("milliseconds", 200)]),
        ("memory", memory, vec![]),
    ]
}

fn usage(message: &str) -> ExitCode {
    eprintln!("load: {message}\n{USAGE}");
    ExitCode::from(2)
}

fn main() -> ExitCode {
    let args: Vec<String> = std::env::args().skip(1).collect();
    let Some((name, given)) = args.split_first() else { return usage("no command") };
    let Some((_, run, defaults)) = commands().into_iter().find(|(known, ..)| known == name) else {
        return usage(&format!("no command {name}"));
    };
    let options = match Options::read(&defaults, given) {
        Ok(options) => options,
        Err(message) => return usage(&message),
    };
    let start = Instant::now();
    let (text, status) = match run(&options) {
        Ok(text) => (text, ExitCode::SUCCESS),
        Err(Failure::Found(text)) => (text, ExitCode::FAILURE),
        Err(Failure::Usage(message)) => return usage(message),
    };
    println!("{name}, {:.0} seconds\n{text}", start.elapsed().as_secs_f64());
    status
}
