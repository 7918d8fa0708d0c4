//! The forms in which a file's result is written.

use crate::names::shown;
use crate::source_line;
use std::fmt::Write as _;
use std::io::Write;
use std::ops::Range;
use woffulent::{Explanation, File, Position, Refusal, Reply};

#[derive(Clone, Copy, Debug, PartialEq, Eq)]
pub enum Form {
    /// As the proved program does.
    Listing,
    /// The same, and of a refusal a message in its place.
    Explain,
    /// An object on a line.
    Json,
    /// The listing, the rows of all tables, and the room.
    Tables,
}

/// What is written to a vector always fits.
const FITS: &str = "a vector takes all bytes";

/// Appends the result of a file; `several` files have their names before their listings.
pub fn write(form: Form, name: &[u8], several: bool, result: &Result<File, Refusal>, out: &mut Vec<u8>) {
    match (form, result) {
        (Form::Json, Ok(file)) => json_file(name, file, out),
        (Form::Json, Err(refusal)) => json_refusal(name, refusal, out),
        (Form::Explain, Err(refusal)) => explained(name, refusal, out),
        _ => {
            if several {
                writeln!(out, "{}:", shown(name)).expect(FITS);
            }
            match result {
                Ok(file) => file.list(out),
                Err(refusal) => refusal.list(out),
            }
            if form == Form::Tables {
                tables(result, out);
            }
        }
    }
}

/// Where, by which reply and why a file is refused, its line, and a mark under the place.
fn explained(name: &[u8], refusal: &Refusal, out: &mut Vec<u8>) {
    let Explanation { sentence, span, .. } = explanation(refusal);
    let place = refusal.position().map_or(String::new(), |at| format!(":{}:{}", at.line, at.column));
    writeln!(out, "{}{place}: refused by {}: {sentence}", shown(name), refusal.number()).expect(FITS);
    if let Some(at) = refusal.position() {
        out.extend_from_slice(source_line::marked(refusal.source(), at.line, span).as_bytes());
    }
}

/// What the library says of a refusal; where a table or the room is too short, also which option lends more.
fn explanation(refusal: &Refusal) -> Explanation {
    let mut explanation = refusal.explain();
    if refusal.is_short() {
        explanation.sentence = format!("{}; `--rows any` lends enough.", explanation.sentence.trim_end_matches('.'));
    }
    explanation
}

/// Every row of the tables, and what is used of the room.
fn tables(result: &Result<File, Refusal>, out: &mut Vec<u8>) {
    match result {
        Err(refusal) => writeln!(out, "report {} {} 0 0 0", refusal.number(), refusal.beside()).expect(FITS),
        Ok(file) => rows(file, out),
    }
}

fn rows(file: &File, out: &mut Vec<u8>) {
    let report = file.report();
    writeln!(out, "report 0 0 {} {} {}", report.tokens, report.nodes, report.constants).expect(FITS);
    for token in file.tokens() {
        writeln!(out, "token {} {} {}", token.kind.number(), token.start, token.text.len()).expect(FITS);
    }
    for node in file.nodes() {
        let binding = node.binding().map_or(0, |declaration| declaration.number() + 1);
        writeln!(out, "node {} {} {} {binding}", node.kind().number(), node.token_number(), node.size()).expect(FITS);
    }
    for (kind, number, length) in (0..report.constants).filter_map(|row| file.answer_row(row)) {
        writeln!(out, "answer {kind} {number} {length}").expect(FITS);
    }
    room(file.room(), out);
}

/// How many bytes all strings have, and the bytes, if there are some.
fn room(bytes: &[u8], out: &mut Vec<u8>) {
    write!(out, "room {}", bytes.len()).expect(FITS);
    if !bytes.is_empty() {
        out.push(b' ');
        out.extend_from_slice(bytes);
    }
    out.push(b'\n');
}

fn json_file(name: &[u8], file: &File, out: &mut Vec<u8>) {
    let report = file.report();
    json_head(name, report.reply, report.number, out);
    write!(out, r#","tokens":{},"nodes":{},"constants":["#, report.tokens, report.nodes).expect(FITS);
    for (i, constant) in file.constants().enumerate() {
        let comma = if i == 0 { "" } else { "," };
        let [schema, name] = [constant.schema(), constant.name()].map(str::to_ascii_lowercase);
        let answer = constant.answer();
        let (kind, printed) = (answer.sort(), json_string(answer.to_string().as_bytes()));
        write!(out, r#"{comma}{{"schema":"{schema}","name":"{name}","kind":"{kind}","answer":{printed}}}"#)
            .expect(FITS);
    }
    out.extend_from_slice(b"]}\n");
}

fn json_refusal(name: &[u8], refusal: &Refusal, out: &mut Vec<u8>) {
    let Explanation { sentence, span, related } = explanation(refusal);
    json_head(name, refusal.reply(), refusal.beside(), out);
    let place = |span: &Range<usize>| {
        let at = Position::of(refusal.source(), span.start);
        format!(r#""line":{},"column":{},"length":{}"#, at.line, at.column, span.len())
    };
    if refusal.place().is_some() {
        write!(out, ",{}", place(&span)).expect(FITS);
    }
    let related: Vec<String> = related.iter().map(|span| format!("{{{}}}", place(span))).collect();
    let message = json_string(sentence.as_bytes());
    writeln!(out, r#","message":{message},"related":[{}]}}"#, related.join(",")).expect(FITS);
}

/// What every object of a file that was read begins with.
fn json_head(name: &[u8], reply: Reply, number: u32, out: &mut Vec<u8>) {
    let file = json_string(name);
    write!(out, r#"{{"file":{file},"reply":{},"name":"{}","number":{number}"#, reply.number(), reply.name())
        .expect(FITS);
}

/// The object of a file that could not be read.
pub fn json_fault(name: &[u8], fault: &str, out: &mut Vec<u8>) {
    writeln!(out, r#"{{"file":{},"error":{}}}"#, json_string(name), json_string(fault.as_bytes())).expect(FITS);
}

/// Bytes as a string of JSON; what is no UTF-8 is replaced.
fn json_string(bytes: &[u8]) -> String {
    let mut text = String::from("\"");
    for letter in String::from_utf8_lossy(bytes).chars() {
        match letter {
            '"' | '\\' => text.extend(['\\', letter]),
            '\0'..='\x1f' | '\x7f' => write!(text, "\\u{:04x}", u32::from(letter)).expect("a string takes all text"),
            _ => text.push(letter),
        }
    }
    text + "\""
}
