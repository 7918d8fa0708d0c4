//! The listing of a check.

use std::io::Write;

use crate::parser::kind;
use crate::{tokens, AnswerRow, Checked, NodeRow};

/// The listing of a check of `bytes`: `refused N at P`, or `accepted N` and a line for each constant.
pub fn listing(bytes: &[u8], checked: &Checked) -> Vec<u8> {
    let report = &checked.report;
    let mut lines = Vec::new();
    if report.reply != 0 {
        line(&mut lines, format_args!("refused {} at {}", report.reply, report.number));
        return lines;
    }
    line(&mut lines, format_args!("accepted {}", report.constants));
    let mut answers = checked.answers.iter().take(report.constants as usize);
    let mut constants = Vec::new();
    for node in checked.nodes.iter().take(report.nodes as usize) {
        match node.kind {
            kind::CONSTANT => constants.push(node),
            kind::SCHEMA => {
                for (constant, answer) in constants.drain(..).zip(&mut answers) {
                    constant_line(&mut lines, bytes, checked, [node, constant], answer);
                }
            }
            _ => {}
        }
    }
    lines
}

fn constant_line(lines: &mut Vec<u8>, bytes: &[u8], checked: &Checked, names: [&NodeRow; 2], answer: &AnswerRow) {
    let [schema, constant] = names;
    name(lines, bytes, checked, schema);
    lines.push(b'.');
    name(lines, bytes, checked, constant);
    lines.extend_from_slice(b" = ");
    match (answer.kind, answer.number) {
        (0, _) => line(lines, format_args!("?")),
        (1, number) => line(lines, format_args!("{number}")),
        (2, 0) => line(lines, format_args!("FALSE")),
        (2, 1) => line(lines, format_args!("UNKNOWN")),
        (2, _) => line(lines, format_args!("TRUE")),
        (3, bits) => line(lines, format_args!("%{:0length$b}", bits, length = answer.length as usize)),
        (4, number) => {
            let item = usize::try_from(number).ok().and_then(|number| checked.nodes.get(number));
            if let Some(item) = item {
                name(lines, bytes, checked, item);
            }
            lines.push(b'\n');
        }
        (5, start) => string(lines, room_bytes(checked, start, answer.length)),
        (end, _) => line(lines, format_args!("end {end}")),
    }
}

/// The bytes of a string; none where a row points outside of the room.
fn room_bytes(checked: &Checked, start: i64, length: u32) -> &[u8] {
    let start = usize::try_from(start).unwrap_or(usize::MAX);
    checked.room.get(start..start.saturating_add(length as usize)).unwrap_or_default()
}

/// A line of a string as a literal: in quotes, each quote in it doubled.
fn string(lines: &mut Vec<u8>, bytes: &[u8]) {
    lines.push(b'\'');
    for &byte in bytes {
        lines.extend(std::iter::repeat_n(byte, if byte == b'\'' { 2 } else { 1 }));
    }
    lines.extend_from_slice(b"'\n");
}

/// The word that names a node, in lower case.
fn name(lines: &mut Vec<u8>, bytes: &[u8], checked: &Checked, node: &NodeRow) {
    if let Some(token) = checked.tokens.get(node.token as usize) {
        lines.extend(tokens::text(bytes, token).iter().map(u8::to_ascii_lowercase));
    }
}

fn line(lines: &mut Vec<u8>, text: std::fmt::Arguments) {
    // Writing to a vector does not fail.
    let _ = writeln!(lines, "{text}");
}
