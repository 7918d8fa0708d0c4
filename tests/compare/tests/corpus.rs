//! The case corpus, run on the reference; and the corpus itself.

use compare::cases::{self, Case, PROGRAM_LENGTHS};
use compare::difference::strings;
use compare::random::every_reply;
use reference::{check, AnswerRow, Checked, NodeRow, Report, TokenRow};
use std::collections::BTreeSet;
use std::panic::{catch_unwind, AssertUnwindSafe};

/// The reserved words of clause 7.2.
const RESERVED: &str = "ABS ABSTRACT ACOS AGGREGATE ALIAS AND ANDOR ARRAY AS ASIN ATAN BAG BEGIN BINARY BLENGTH BOOLEAN BY CASE CONSTANT
CONST_E CONTEXT COS DERIVE DIV ELSE END END_ALIAS END_CASE END_CONSTANT END_CONTEXT END_ENTITY END_FUNCTION END_IF END_LOCAL END_MODEL
END_PROCEDURE END_REPEAT END_RULE END_SCHEMA END_TYPE ENTITY ENUMERATION ESCAPE EXISTS EXP FALSE FIXED FOR FORMAT FROM FUNCTION GENERIC
HIBOUND HIINDEX IF IN INSERT INTEGER INVERSE LENGTH LIKE LIST LOBOUND LOCAL LOG LOG10 LOG2 LOGICAL LOINDEX MOD MODEL NOT NUMBER NVL ODD OF
ONEOF OPTIONAL OR OTHERWISE PI PROCEDURE QUERY REAL REFERENCE REMOVE REPEAT RETURN ROLESOF RULE SCHEMA SELECT SELF SET SIN SIZEOF SKIP SQRT
STRING SUBTYPE SUPERTYPE TAN THEN TO TRUE TYPE TYPEOF UNIQUE UNKNOWN UNTIL USE USEDIN VALUE VALUE_IN VALUE_UNIQUE VAR WHERE WHILE XOR";

/// Runs `test` on every case; fails with what it says of each case that is not as it should be.
fn each(test: impl Fn(&Case, &Checked) -> Result<(), String>) {
    let all = cases::all();
    let faults: Vec<String> = all
        .iter()
        .filter_map(|case| {
            let ran = catch_unwind(AssertUnwindSafe(|| test(case, &check(&case.input, case.lengths))));
            let said = ran.unwrap_or_else(|_| Err("panicked".to_string()));
            said.err().map(|fault| format!("{}: {fault}\n  checks {}", case.name, case.sentence))
        })
        .collect();
    assert!(faults.is_empty(), "{} of {} cases fail\n{}", faults.len(), all.len(), faults.join("\n"));
}

#[test]
fn listings_are_as_expected() {
    each(|case, checked| {
        let got = reference::listing(&case.input, checked);
        if got == case.expected {
            return Ok(());
        }
        // The lines in which the two differ, with their numbers.
        let lines =
            |text: &[u8]| String::from_utf8_lossy(text).split_inclusive('\n').map(str::to_string).collect::<Vec<_>>();
        let (want, got) = (lines(&case.expected), lines(&got));
        let mut said = String::from("another listing");
        for i in 0..want.len().max(got.len()) {
            if want.get(i) != got.get(i) {
                said += &format!("\n  line {}: expected {:?}, got {:?}", i + 1, want.get(i), got.get(i));
            }
        }
        Err(said)
    });
}

#[test]
fn reports_are_as_expected() {
    each(|case, checked| {
        let (reply, number) = case.reply();
        let Report { tokens, nodes, .. } = checked.report;
        let want = match reply {
            0 => Report { reply, number: 0, tokens, nodes, constants: number as u32 },
            _ => Report { reply, number, tokens: 0, nodes: 0, constants: 0 },
        };
        if checked.report == want {
            Ok(())
        } else {
            Err(format!("expected {want:?}, got {:?}", checked.report))
        }
    });
}

#[test]
fn tables_are_zero_after_a_refusal_and_past_the_counts() {
    each(|case, checked| {
        let Checked { report, tokens, nodes, answers, room } = checked;
        if [tokens.len(), nodes.len(), answers.len(), room.len()] != case.lengths {
            return Err("a table is not as long as it was lent".to_string());
        }
        let used = match report.reply {
            0 => {
                let [tokens, nodes, answers] = [report.tokens, report.nodes, report.constants].map(|n| n as usize);
                [tokens, nodes, answers, strings(checked).map(<[u8]>::len).sum()]
            }
            _ => [0; 4],
        };
        if (0..4).any(|i| used[i] > case.lengths[i]) {
            return Err(format!("more entries than the tables have: {used:?}"));
        }
        let zero = tokens[used[0]..].iter().all(|row| *row == TokenRow::default())
            && nodes[used[1]..].iter().all(|row| *row == NodeRow::default())
            && answers[used[2]..].iter().all(|row| *row == AnswerRow::default())
            && room[used[3]..].iter().all(|&byte| byte == 0);
        if zero {
            Ok(())
        } else {
            Err(format!("an entry past {used:?} is not zero"))
        }
    });
}

/// What a line of a file of rows may begin with.
const TABLES: [&str; 5] = ["report ", "token ", "node ", "answer ", "room "];

/// The report, the rows and the used part of the room, as a file of rows gives them.
fn written_rows(checked: &Checked) -> Vec<String> {
    let Checked { report, tokens, nodes, answers, room } = checked;
    let Report { reply, number, tokens: token_count, nodes: node_count, constants } = report;
    let token = |r: &TokenRow| format!("token {} {} {}", r.kind, r.start, r.length);
    let node = |r: &NodeRow| format!("node {} {} {} {}", r.kind, r.token, r.size, r.binding);
    let answer = |r: &AnswerRow| format!("answer {} {} {}", r.kind, r.number, r.length);
    let used = room.len() - room.iter().rev().take_while(|&&byte| byte == 0).count();
    let mut lines = vec![format!("report {reply} {number} {token_count} {node_count} {constants}")];
    lines.extend(tokens[..*token_count as usize].iter().map(token));
    lines.extend(nodes[..*node_count as usize].iter().map(node));
    lines.extend(answers[..*constants as usize].iter().map(answer));
    let bytes = String::from_utf8_lossy(&room[..used]);
    lines.push(if used == 0 { "room 0".to_string() } else { format!("room {used} {bytes}") });
    lines
}

#[test]
fn rows_are_as_expected() {
    each(|case, checked| {
        let Some(want) = cases::rows(case) else { return Ok(()) };
        let got = written_rows(checked);
        let mut faults = Vec::new();
        for table in TABLES {
            let want: Vec<&str> = want.lines().filter(|row| row.starts_with(table)).collect();
            let got: Vec<&str> = got.iter().map(String::as_str).filter(|row| row.starts_with(table)).collect();
            if want.is_empty() {
                continue;
            }
            for i in 0..want.len().max(got.len()) {
                if want.get(i) != got.get(i) {
                    faults.push(format!("\n  row {i}: expected {:?}, got {:?}", want.get(i), got.get(i)));
                }
            }
        }
        if faults.is_empty() {
            Ok(())
        } else {
            Err(format!("other rows{}", faults.concat()))
        }
    });
}

#[test]
fn every_reserved_word_is_no_name() {
    let words: Vec<&str> = RESERVED.split_whitespace().collect();
    assert_eq!(words.len(), 119);
    for word in words {
        for word in [word.to_string(), word.to_lowercase()] {
            let input = format!("SCHEMA {word};END_SCHEMA;");
            let Report { reply, number, .. } = check(input.as_bytes(), PROGRAM_LENGTHS).report;
            assert_eq!((reply, number), (4, 7), "{input}");
            let input = format!("SCHEMA {word}_;END_SCHEMA;");
            assert_eq!(check(input.as_bytes(), PROGRAM_LENGTHS).report.reply, 0, "{input}");
        }
    }
}

#[test]
fn every_byte_alone() {
    for byte in 0..=255u8 {
        let want = match byte {
            9..=13 | 32 => (4, 1),
            b'a'..=b'z' | b'A'..=b'Z' | b'0'..=b'9' => (4, 0),
            _ if b"?.,;:*+-=\\/<>[]{}|()".contains(&byte) => (4, 0),
            _ => (2, 0),
        };
        let Report { reply, number, .. } = check(&[byte], PROGRAM_LENGTHS).report;
        assert_eq!((reply, number), want, "byte {byte}");
    }
}

#[test]
fn the_corpus_has_every_reply() {
    let all = cases::all();
    assert!(all.len() >= 150, "{} cases", all.len());
    for reply in every_reply() {
        let count = all.iter().filter(|case| case.reply().0 == reply as u32).count();
        assert!(count >= 4, "reply {reply} has {count} cases");
    }
}

#[test]
fn index_and_files_agree() {
    let all = cases::all();
    let names: BTreeSet<String> = all.iter().map(|case| case.name.clone()).collect();
    assert_eq!(names.len(), all.len(), "a name stands twice in the INDEX");
    let mut files = BTreeSet::new();
    for entry in std::fs::read_dir(cases::folder()).unwrap() {
        files.insert(entry.unwrap().file_name().into_string().unwrap());
    }
    let mut want: BTreeSet<String> =
        names.iter().flat_map(|name| [format!("{name}.exp"), format!("{name}.out")]).collect();
    want.extend(["INDEX", "README.md", ".gitattributes"].map(str::to_string));
    let rows: BTreeSet<String> = files.iter().filter(|file| file.ends_with(".rows")).cloned().collect();
    assert!(rows.len() >= 5, "{} files of rows", rows.len());
    for file in rows {
        let text = std::fs::read_to_string(cases::folder().join(&file)).unwrap();
        for line in text.lines() {
            let known = TABLES.iter().any(|table| line.starts_with(table));
            assert!(known, "{file}: {line}");
        }
        assert!(names.contains(file.trim_end_matches(".rows")), "{file}: no such case");
        want.insert(file);
    }
    assert_eq!(files.symmetric_difference(&want).collect::<Vec<_>>(), Vec::<&String>::new());
    for case in &all {
        assert!(case.name.bytes().all(|b| b.is_ascii_lowercase() || b.is_ascii_digit() || b == b'-'), "{}", case.name);
        assert!(!case.sentence.is_empty(), "{}", case.name);
        // A refusal is one line, an acceptance has a line for each constant.
        let (reply, number) = case.reply();
        let lines = case.expected.iter().filter(|b| **b == b'\n').count() as u64;
        assert_eq!(lines, if reply == 0 { number + 1 } else { 1 }, "{}", case.name);
        assert_eq!(case.expected.last(), Some(&b'\n'), "{}", case.name);
    }
}
