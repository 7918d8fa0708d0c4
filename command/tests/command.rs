//! The command as a user meets it: arguments, forms, exit statuses, and what goes wrong around it.

mod common;

use common::*;
use std::ffi::OsStr;
use std::fs::{self, File, OpenOptions};
use std::io::{Read, Write};
use std::os::unix::ffi::OsStrExt;
use std::os::unix::fs::symlink;
use std::path::Path;
use std::process::Stdio;
use std::sync::mpsc;
use std::thread;
use std::time::{Duration, Instant};

fn owned(stdout: &str, stderr: &str, status: i32) -> (String, String, i32) {
    (stdout.to_string(), stderr.to_string(), status)
}

/// `rt ci` refuses a repository in which links lie, also below target/.
fn removed(folder: &Path, links: &[&str]) {
    links.iter().for_each(|link| fs::remove_file(folder.join(link)).expect("a link"));
}

#[test]
fn one_file_has_its_listing_alone() {
    let folder = folder("one");
    assert_eq!(told(&run(["check", &file(&folder, "a.exp", ACCEPTED)])), owned(ACCEPTED_LISTING, "", 0));
    assert_eq!(told(&run(["check", &file(&folder, "b.exp", REFUSED)])), owned(REFUSED_LISTING, "", 1));
    assert_eq!(told(&run_on(&["check", "-"], ACCEPTED.as_bytes())), owned(ACCEPTED_LISTING, "", 0));
}

#[test]
fn several_files_have_their_names_and_totals_in_the_order_of_the_arguments() {
    let folder = folder("several");
    let (b, a) = (file(&folder, "b.exp", REFUSED), file(&folder, "a.txt", ACCEPTED));
    let (written, said, status) = told(&run_on(&["check", &b, "-", &a], ACCEPTED.as_bytes()));
    assert_eq!(written, format!("{b}:\n{REFUSED_LISTING}-:\n{ACCEPTED_LISTING}{a}:\n{ACCEPTED_LISTING}"));
    let bytes = 2 * ACCEPTED.len() + REFUSED.len();
    assert!(said.starts_with(&format!("2 accepted, 1 refused (1 by 10), {bytes} bytes in ")), "{said}");
    assert_eq!(status, 1);
}

#[test]
fn a_folder_stands_for_its_schemas_and_those_below() {
    let top = folder("tree");
    let names = ["a/z.EXP", "b.exp", "c/d/e.exp"].map(|name| file(&top, name, ACCEPTED));
    file(&top, "a/notes.txt", "no schema");
    symlink(&top, top.join("c/back")).expect("a link");
    let (written, _, status) = told(&run(["check", top.to_str().expect("letters")]));
    assert_eq!((written, status), (names.map(|name| format!("{name}:\n{ACCEPTED_LISTING}")).concat(), 0));
    removed(&top, &["c/back"]);
    let empty = folder("empty");
    let (written, said, status) = told(&run(["check", empty.to_str().expect("letters")]));
    assert_eq!((written.as_str(), status), ("", 2));
    assert!(said.contains("no file in this folder ends in .exp"), "{said}");
}

/// A pipe would keep the command waiting.
#[test]
fn of_a_folder_files_alone_are_read() {
    let top = folder("files-alone");
    let a = file(&top, "a.exp", ACCEPTED);
    symlink(&a, top.join("b.exp")).expect("a link");
    symlink("nowhere", top.join("c.exp")).expect("a link");
    let pipe = pipe(&top, "d.exp");
    let mut child =
        command().arg("check").arg(&top).stdout(Stdio::piped()).stderr(Stdio::piped()).spawn().expect("it starts");
    assert!(opened(&pipe, &mut child).is_none(), "it reads the pipe");
    let (written, said, status) = told(&child.wait_with_output().expect("it ends"));
    let b = top.join("b.exp");
    assert_eq!(written, format!("{a}:\n{ACCEPTED_LISTING}{}:\n{ACCEPTED_LISTING}", b.display()));
    assert!(said.contains("c.exp: No such file") && !said.contains("d.exp"), "{said}");
    assert_eq!(status, 2);
    removed(&top, &["b.exp", "c.exp"]);
}

#[test]
fn what_cannot_be_read_is_said_and_the_rest_is_checked() {
    let folder = folder("unread");
    let (a, missing) = (file(&folder, "a.exp", ACCEPTED), format!("{}/none.exp", folder.display()));
    let (written, said, status) = told(&run(["check", &missing, &a]));
    assert_eq!((written, status), (format!("{a}:\n{ACCEPTED_LISTING}"), 2));
    assert!(said.starts_with(&format!("woffulent: {missing}: No such file")), "{said}");
    assert!(said.contains("1 accepted, 0 refused, 1 not read"), "{said}");
    let (written, _, status) = told(&run(["check", "--json", &missing]));
    assert!(written.starts_with(&format!(r#"{{"file":"{missing}","error":"No such file"#)), "{written}");
    assert_eq!(status, 2);
}

const SHORT: &str =
    "-: refused by 6: The file needs 17 rows in the token table, and fewer were lent; `--rows any` lends enough.\n";

#[test]
fn a_refusal_is_explained_where_it_is() {
    let (written, said, status) = told(&run_on(&["check", "--explain", "-"], REFUSED.as_bytes()));
    let wanted = "-:3:21: refused by 10: Schema `Press` declares no constant and no item `stepp`.\n     \
                  3 |   step : INTEGER := stepp;\n       |                     ^^^^^\n";
    assert_eq!((written.as_str(), said.as_str(), status), (wanted, "", 1));
    assert_eq!(told(&run_on(&["check", "--explain", "-"], ACCEPTED.as_bytes())), owned(ACCEPTED_LISTING, "", 0));
    let (written, ..) = told(&run_on(&["check", "--explain", "--rows", "2,2,2", "-"], ACCEPTED.as_bytes()));
    assert_eq!(written, SHORT);
    let (written, ..) = told(&run_on(&["check", "--json", "--rows", "17,8,0", "-"], ACCEPTED.as_bytes()));
    assert!(written.contains("in the answer table, and fewer were lent; `--rows any` lends enough."), "{written}");
    let (written, ..) = told(&run_on(&["check", "--explain", "--rows", "99,99,9,9", "-"], STRINGS.as_bytes()));
    assert_eq!(written, SHORT_ROOM);
}

/// Quotes of both sorts and a backslash, a string that is joined, and one without bytes.
const STRINGS: &str =
    "SCHEMA s; CONSTANT a : STRING := b + '\"\\'; b : STRING := 'it''s'; c : STRING := ''; END_CONSTANT; END_SCHEMA;";
const STRINGS_LISTING: &str = "accepted 3\ns.a = 'it''s\"\\'\ns.b = 'it''s'\ns.c = ''\n";
const SHORT_ROOM: &str =
    "-: refused by 20: The strings of the constants do not fit into the room of 9 bytes that was lent; `--rows \
                          any` lends enough.\n";

#[test]
fn strings_are_written_in_each_form() {
    assert_eq!(told(&run_on(&["check", "-"], STRINGS.as_bytes())), owned(STRINGS_LISTING, "", 0));
    let (written, _, status) = told(&run_on(&["tables", "--rows", "99,99,9,10", "-"], STRINGS.as_bytes()));
    let rest = written.strip_prefix(STRINGS_LISTING).expect("the listing first");
    let rows: Vec<&str> = rest.lines().skip_while(|line| !line.starts_with("answer")).collect();
    assert_eq!((rows, status), (vec!["answer 5 0 6", "answer 5 6 4", "answer 5 10 0", "room 10 it's\"\\it's"], 0));
    let (written, ..) = told(&run_on(&["check", "--json", "-"], STRINGS.as_bytes()));
    for constant in [
        r#"{"schema":"s","name":"a","kind":"string","answer":"'it''s\"\\'"}"#,
        r#"{"schema":"s","name":"c","kind":"string","answer":"''"}"#,
    ] {
        assert!(written.contains(constant), "{written}");
    }
    let refused = told(&run_on(&["tables", "--rows", "99,99,9,0", "-"], STRINGS.as_bytes()));
    assert_eq!(refused, owned("refused 20 at 0\nreport 20 0 0 0 0\n", "", 1));
    // Without a room of its own there is one that suffices.
    assert_eq!(told(&run_on(&["check", "--rows", "99,99,9", "-"], STRINGS.as_bytes())).2, 0);
}

/// Bytes that move the cursor do not reach the terminal, and a long line is cut around the place.
#[test]
fn a_shown_line_is_fit_for_a_terminal() {
    let (written, ..) = told(&run_on(
        &["check", "--explain", "-"],
        "SCHEMA s; (* \x1b[2J\u{65e5}\u{301}\x07 *)\tCONSTANT !".as_bytes(),
    ));
    assert!(written
        .lines()
        .skip(1)
        .all(|line| line.chars().all(|letter| letter == '\u{fffd}' || (' '..='~').contains(&letter))));
    let mark = |text: &str| text.lines().last().expect("a mark").chars().position(|letter| letter == '^');
    let at =
        |text: &str, sought: char| text.lines().nth(1).expect("a line").chars().position(|letter| letter == sought);
    assert_eq!(mark(&written), at(&written, '!'));
    let long = format!("SCHEMA s; {}~{}", "CONSTANT ".repeat(900), "x".repeat(900));
    let (written, ..) = told(&run_on(&["check", "--explain", "-"], long.as_bytes()));
    assert!(written.lines().all(|line| line.len() < 150), "{written}");
    assert_eq!(mark(&written), at(&written, '~'));
    // The place behind the last byte, and an empty file.
    for (text, column) in [("SCHEMA s;", 10), ("SCHEMA s;\n", 1), ("", 1)] {
        let (written, ..) = told(&run_on(&["check", "--explain", "-"], text.as_bytes()));
        assert!(written.contains(&format!(":{column}: refused by 4: The file ends too early")), "{written}");
    }
}

#[test]
fn json_is_an_object_on_a_line() {
    let (written, said, status) = told(&run_on(&["check", "--json", "-"], ACCEPTED.as_bytes()));
    let constant = r#"{"schema":"press","name":"step","kind":"integer","answer":"-4"}"#;
    let head = r#"{"file":"-","reply":0,"name":"ACCEPTED","number":0,"tokens":17,"nodes":8"#;
    assert_eq!((written, said.as_str(), status), (format!("{head},\"constants\":[{constant}]}}\n"), "", 0));
    let twice = REFUSED.replace("stepp;", "1; Step : INTEGER := 2;");
    let (written, _, status) = told(&run_on(&["check", "--json", "-"], twice.as_bytes()));
    let message = "`Step` is declared in schema `Press` already, as a constant on line 3.";
    let related = r#"[{"line":3,"column":3,"length":4}]"#;
    let head = r#"{"file":"-","reply":9,"name":"REPEATED","number":46,"line":3,"column":24,"length":4"#;
    assert_eq!((written, status), (format!("{head},\"message\":\"{message}\",\"related\":{related}}}\n"), 1));
    let (written, ..) = told(&run_on(&["check", "--json", "-"], b"SCHEMA s; \""));
    assert!(written.contains(r#""message":"The byte 34, `\"`, begins no token.","related":[]}"#), "{written}");
}

#[test]
fn tables_are_written_row_by_row() {
    let (written, said, status) = told(&run_on(&["tables", "-"], ACCEPTED.as_bytes()));
    let rest = written.strip_prefix(ACCEPTED_LISTING).expect("the listing first");
    let lines: Vec<&str> = rest.lines().collect();
    assert_eq!(
        (lines[0], lines[1], lines[18], lines[25]),
        ("report 0 0 17 8 1", "token 1 0 6", "node 13 6 1 0", "node 26 0 8 0")
    );
    assert_eq!((lines[26], lines[27], lines.len()), ("answer 1 -4 0", "room 0", 28));
    assert_eq!((said.as_str(), status), ("", 0));
    let refused = told(&run_on(&["tables", "-"], REFUSED.as_bytes()));
    assert_eq!(refused, owned(&format!("{REFUSED_LISTING}report 10 43 0 0 0\n"), "", 1));
}

#[test]
fn what_is_too_long_is_refused_without_being_read_whole() {
    let folder = folder("long");
    let path = folder.join("sparse.exp");
    File::create(&path).and_then(|file| file.set_len(1 << 33)).expect("a sparse file");
    let start = Instant::now();
    assert_eq!(told(&run(["check", path.to_str().expect("letters")])), owned("refused 1 at 65536\n", "", 1));
    let endless = File::open("/dev/zero").expect("/dev/zero");
    let output = command().args(["check", "-"]).stdin(endless).output().expect("it ends");
    assert_eq!(told(&output), owned("refused 1 at 65536\n", "", 1));
    assert!(start.elapsed() < Duration::from_secs(20));
}

#[test]
fn a_broken_pipe_ends_it_quietly() {
    let folder = folder("pipe");
    let long =
        format!("SCHEMA {};CONSTANT {}END_CONSTANT;END_SCHEMA;", "s".repeat(2_000), "c:INTEGER:=1;".replace('c', "c0"));
    let files: Vec<String> = (0..400).map(|i| file(&folder, &format!("{i}.exp"), &long)).collect();
    let mut child =
        command().arg("check").args(files).stdout(Stdio::piped()).stderr(Stdio::piped()).spawn().expect("it starts");
    let mut first = [0; 10];
    child.stdout.take().expect("a pipe").read_exact(&mut first).expect("some output");
    let output = child.wait_with_output().expect("it ends");
    assert_eq!((output.status.code(), output.stderr), (Some(2), Vec::new()));
}

/// Each thread takes two files at a time here, and writes of the first before it has the second.
#[test]
fn a_long_listing_does_not_wait_for_the_next_file() {
    let folder = folder("early");
    let schema = "s".repeat(3_000);
    let constants: String = (0..500).map(|i| format!("c{i}:INTEGER:={i};")).collect();
    let long = file(&folder, "long.exp", &format!("SCHEMA {schema};CONSTANT {constants}END_CONSTANT;END_SCHEMA;"));
    let (late, small) = (pipe(&folder, "late.exp"), file(&folder, "small.exp", ACCEPTED));
    let smalls = 16 * thread::available_parallelism().map_or(1, usize::from) - 2;
    let mut child = command()
        .args(["check", &long, &late])
        .args(vec![&small; smalls])
        .stdout(Stdio::piped())
        .stderr(Stdio::null())
        .spawn()
        .expect("it starts");
    let mut written = child.stdout.take().expect("a pipe");
    let (much, is_there) = mpsc::channel();
    let reader = thread::spawn(move || {
        let (mut text, mut rest) = (vec![0; 1 << 20], Vec::new());
        written.read_exact(&mut text).expect("the listing");
        much.send(()).expect("somebody waits");
        written.read_to_end(&mut rest).expect("the others");
        [text, rest].concat()
    });
    let early = is_there.recv_timeout(Duration::from_secs(20)).is_ok();
    let mut end = opened(&late, &mut child).expect("it reads the pipe");
    end.write_all(ACCEPTED.as_bytes()).expect("it reads");
    drop(end);
    let answers: String = (0..500).map(|i| format!("{schema}.c{i} = {i}\n")).collect();
    let short = |name: &str| format!("{name}:\n{ACCEPTED_LISTING}");
    let wanted = format!("{long}:\naccepted 500\n{answers}{}{}", short(&late), short(&small).repeat(smalls));
    assert!(reader.join().expect("it ends") == wanted.as_bytes(), "the results in their order");
    assert_eq!((child.wait().expect("it ends").code(), early), (Some(0), true));
}

fn full() -> File {
    OpenOptions::new().write(true).open("/dev/full").expect("/dev/full")
}

#[test]
fn a_mistake_that_nobody_can_be_told_of_has_its_status() {
    let output = command().arg("chek").stderr(full()).output().expect("it ends");
    assert_eq!(output.status.code(), Some(2));
}

#[test]
fn an_output_that_is_full_is_said() {
    let output = command().args(["check", "/dev/null"]).stdout(full()).output().expect("it ends");
    let (_, said, status) = told(&output);
    assert!(said.contains("No space left"), "{said}");
    assert_eq!(status, 2);
}

#[test]
fn bad_usage_is_explained() {
    let mistakes: [(&[&str], &str); 13] = [
        (&[], "a command is missing"),
        (&["chek", "a"], "no command is called `chek`"),
        (&["check"], "no file is named"),
        (&["check", "--explian", "a"], "no option is called `--explian`"),
        (&["check", "--json", "--explain", "a"], "exclude each other"),
        (&["check", "--rows"], "`--rows` needs three or four numbers behind it"),
        (&["check", "--rows", "1,2", "a"], "and not `1,2`"),
        (&["check", "--rows", "1,x,3,4", "a"], "and not `1,x,3,4`"),
        (&["check", "--rows", "1,2,3,4,5", "a"], "and not `1,2,3,4,5`"),
        (&["check", "-", "-"], "`-` can stand once"),
        (&["tables", "a", "b"], "`tables` takes one file"),
        (&["tables", "."], "`tables` takes a file, and `.` is a folder"),
        (&["tables", "--json", "a"], "go with `check`"),
    ];
    for (arguments, mistake) in mistakes {
        let (written, said, status) = told(&run(arguments));
        assert_eq!((written.as_str(), status), ("", 2), "{arguments:?}");
        assert!(said.contains(mistake) && said.contains("usage: woffulent check"), "{arguments:?}: {said}");
    }
}

#[test]
fn help_and_version_are_given() {
    let (help, said, status) = told(&run(["--help"]));
    assert_eq!((said.as_str(), status), ("", 0));
    for word in ["check", "tables", "--explain", "--json", "--rows", "exit status"] {
        assert!(help.contains(word), "{word}");
    }
    assert!(help.lines().all(|line| line.len() <= 110), "{help}");
    assert_eq!(told(&run(["check", "--help"])).0, help);
    assert_eq!(told(&run(["--version"])), owned("woffulent 0.1.0\n", "", 0));
}

#[test]
fn names_of_any_bytes_are_files() {
    let folder = folder("names");
    let odd = folder.join(OsStr::from_bytes(b"\xff .exp"));
    fs::write(&odd, ACCEPTED).expect("a file");
    assert_eq!(told(&run([OsStr::new("check"), odd.as_os_str()])), owned(ACCEPTED_LISTING, "", 0));
    fs::write(folder.join("--json"), ACCEPTED).expect("a file");
    let output = command().args(["check", "--", "--json"]).current_dir(&folder).output().expect("it ends");
    assert_eq!(told(&output), owned(ACCEPTED_LISTING, "", 0));
}

/// Control letters in a name do not reach the terminal.
#[test]
fn names_are_shown_fit_for_a_terminal() {
    let folder = folder("control");
    let odd = folder.join(OsStr::from_bytes(b"\x1b[2J\xc2\x9b\xff\xc3\xbc.exp"));
    let missing = folder.join("\x1b[2Jnone.exp");
    fs::write(&odd, REFUSED).expect("a file");
    for options in [&[][..], &["--explain"]] {
        let output = command().arg("check").args(options).args([&odd, &missing]).output().expect("it ends");
        let (written, said, _) = told(&output);
        assert!(written.contains("/\\x1b[2J\\xc2\\x9b\\xff\u{fc}.exp:"), "{written}");
        assert!(said.contains("/\\x1b[2Jnone.exp: No such file"), "{said}");
        assert!(!(written + &said).contains(|letter: char| letter.is_control() && letter != '\n'));
    }
    let (_, said, _) = told(&run(["check", "-\x1b"]));
    assert!(said.contains("no option is called `-\\x1b`"), "{said}");
}
