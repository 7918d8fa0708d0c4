//! The command's listings are those of the proved program, by single files and by folders of a thousand.

mod common;

use common::{folder, run, run_on, told};
use compare::cases::{self, Case, PROGRAM_LENGTHS};
use compare::program::program;
use compare::random::{damaged, file};
use std::fs::{self, File};
use std::path::Path;
use std::process::{Command, Stdio};

/// Random files in the folder.
const FILES: u64 = 1_000;

/// What the proved program writes of a file.
fn proved(path: &Path) -> Vec<u8> {
    let input = File::open(path).expect("a file");
    let output = Command::new(program()).stdin(input).stderr(Stdio::inherit()).output().expect("the program ends");
    output.stdout
}

fn lent(case: &Case) -> String {
    case.lengths.map(|rows| rows.to_string()).join(",")
}

#[test]
fn every_case_has_its_listing() {
    for case in cases::all() {
        let output = run_on(&["check", "--rows", &lent(&case), "-"], &case.input);
        let expected = String::from_utf8_lossy(&case.expected).into_owned();
        let status = if case.reply().0 == 0 { 0 } else { 1 };
        assert_eq!(told(&output), (expected, String::new(), status), "{}", case.name);
    }
}

#[test]
fn without_options_it_lends_what_the_program_does() {
    let bounds =
        cases::all().into_iter().filter(|case| case.lengths == PROGRAM_LENGTHS && case.name.starts_with("large"));
    let mut short = 0;
    for case in bounds {
        assert_eq!(run_on(&["check", "-"], &case.input).stdout, case.expected, "{}", case.name);
        short += usize::from(matches!(case.reply().0, 6..=8));
    }
    assert!(short > 0, "no case goes beyond what the program lends");
}

#[test]
fn rows_are_those_of_the_cases() {
    let mut seen = 0;
    for case in cases::all() {
        let Some(rows) = cases::rows(&case) else { continue };
        let (written, said, status) = told(&run_on(&["tables", "--rows", &lent(&case), "-"], &case.input));
        let wanted_status = i32::from(case.reply().0 != 0);
        assert_eq!((said.as_str(), status), ("", wanted_status), "{}", case.name);
        for table in ["report", "token", "node", "answer", "room"] {
            let of = |text: &str| {
                text.lines().filter(|line| line.starts_with(table)).map(str::to_string).collect::<Vec<_>>()
            };
            let wanted = of(&rows);
            assert!(wanted.is_empty() || of(&written) == wanted, "{} {table}", case.name);
            seen += wanted.len();
        }
        assert!(written.starts_with(&*String::from_utf8_lossy(&case.expected)), "{}", case.name);
    }
    assert!(seen > 50, "{seen}");
}

#[test]
fn a_folder_of_a_thousand_files_has_the_listings_of_the_proved_program_in_order() {
    let folder = folder("thousand");
    let mut expected = Vec::new();
    for seed in 0..FILES {
        // Names in the order of the seeds.
        let path = folder.join(format!("{seed:04}.exp"));
        fs::write(&path, if seed % 2 == 0 { file(seed) } else { damaged(seed, 300) }).expect("a file");
        expected.extend_from_slice(format!("{}:\n", path.display()).as_bytes());
        expected.extend(proved(&path));
    }
    let output = run(["check", folder.to_str().expect("a path of letters")]);
    assert!(output.stdout == expected, "{} bytes, not {}", output.stdout.len(), expected.len());
    let (_, said, status) = told(&output);
    assert_eq!(status, 1);
    let listed = String::from_utf8_lossy(&expected).into_owned();
    let refused = listed.lines().filter(|line| line.starts_with("refused")).count();
    let counts = format!("{} accepted, {refused} refused (", FILES as usize - refused);
    assert!(said.starts_with(&counts) && said.ends_with(" bytes/s\n") && said.lines().count() == 1, "{said}");
    explained(folder.to_str().expect("a path of letters"), &listed);
}

/// With `--explain` the accepted files have their listings still, and the others their names and the same replies.
fn explained(folder: &str, listed: &str) {
    let (written, _, status) = told(&run(["check", "--explain", folder]));
    assert_eq!(status, 1);
    let mut lines = written.lines();
    let mut listed = listed.lines().peekable();
    while let Some(line) = listed.next() {
        match listed.peek().and_then(|next| next.strip_prefix("refused ")) {
            Some(refusal) => {
                let (reply, _) = refusal.split_once(" at ").expect("a reply and a number");
                let message = lines.find(|line| !line.contains(" | ")).expect("a message");
                let head = format!("refused by {reply}: ");
                assert!(message.starts_with(line) && message.contains(&head), "{message}, not {line} {refusal}");
                listed.next();
            }
            None => assert_eq!(lines.find(|line| !line.contains(" | ")), Some(line)),
        }
    }
}
