//! Every line of `--json` is one JSON object, whatever the file and its name.

mod common;

use common::{folder, run, told};
use compare::cases;
use compare::random::damaged;
use std::ffi::OsStr;
use std::fs;
use std::os::unix::ffi::OsStrExt;

/// What is left of a text behind the value that it begins with, by the grammar of JSON.
fn value(text: &str) -> Option<&str> {
    match text.chars().next()? {
        '{' => list(&text[1..], '}', |member| value(string(member)?.strip_prefix(':')?)),
        '[' => list(&text[1..], ']', value),
        '"' => string(text),
        _ => {
            let digits = text.trim_start_matches(|letter: char| letter.is_ascii_digit());
            (digits.len() < text.len()).then_some(digits)
        }
    }
}

fn list(mut text: &str, end: char, member: impl Fn(&str) -> Option<&str>) -> Option<&str> {
    if let Some(rest) = text.strip_prefix(end) {
        return Some(rest);
    }
    loop {
        text = member(text)?;
        match text.strip_prefix(',') {
            Some(rest) => text = rest,
            None => return text.strip_prefix(end),
        }
    }
}

fn string(text: &str) -> Option<&str> {
    let mut text = text.strip_prefix('"')?;
    loop {
        let letter = text.chars().next()?;
        text = &text[letter.len_utf8()..];
        match letter {
            '"' => return Some(text),
            '\\' if text.starts_with(['"', '\\']) => text = &text[1..],
            '\\' => {
                let code = text.strip_prefix('u')?.get(..4)?;
                code.chars().all(|digit| digit.is_ascii_hexdigit()).then_some(())?;
                text = &text[5..];
            }
            '\0'..='\x1f' => return None,
            _ => {}
        }
    }
}

#[test]
fn the_reader_of_this_test_tells_json_from_other_text() {
    for good in [r#"{"a":[1,{"b":"c\"\u0041"}],"d":[]}"#, "{}", "12"] {
        assert_eq!(value(good), Some(""), "{good}");
    }
    for bad in [r#"{"a":}"#, r#"{"a":1,}"#, "[1 2]", r#""a"#, "\"\n\"", r#""\x""#, "a"] {
        assert_ne!(value(bad), Some(""), "{bad}");
    }
}

#[test]
fn every_line_is_an_object() {
    let folder = folder("json");
    let mut files = 0;
    let inputs = cases::all().into_iter().map(|case| case.input).chain((0..1_000).map(|seed| damaged(seed, 200)));
    for (number, input) in inputs.enumerate() {
        // Names with quotes, line feeds and bytes that are no text.
        let name = [b"\"\\\n\xff".as_slice(), format!("{number}.exp").as_bytes()].concat();
        fs::write(folder.join(OsStr::from_bytes(&name)), input).expect("a file");
        files += 1;
    }
    let (written, _, status) = told(&run(["check", "--json", folder.to_str().expect("letters")]));
    assert_eq!((written.lines().count(), status), (files, 1));
    for line in written.lines() {
        assert_eq!(value(line), Some(""), "{line}");
        assert!(line.starts_with(r#"{"file":""#) && line.contains(r#","reply":"#), "{line}");
    }
}
