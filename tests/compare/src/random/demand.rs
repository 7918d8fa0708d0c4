//! What holds of every result, whatever the file.

use super::damage::LARGEST;
use crate::difference::STRING;
use reference::{AnswerRow, Checked, Lent, NodeRow, Report, TokenRow, MAX_STRING, ROOM_SHORT};

/// Whether a result keeps what is promised of every result: the tables' lengths, zeros where nothing is told, and
/// numbers within their bounds.
pub fn demand_one(file: &[u8], lengths: Lent, checked: &Checked) -> Result<(), String> {
    let Checked { report, tokens, nodes, answers, room } = checked;
    let counts = [report.tokens, report.nodes, report.constants].map(|count| count as usize);
    let demands = [
        ("the tables have the lent lengths", [tokens.len(), nodes.len(), answers.len(), room.len()] == lengths),
        ("the reply is one of the table", matches!(report.reply, 0..=15 | ROOM_SHORT)),
        ("the number is within its bounds", number_fits(file.len() as u64, lengths, report)),
        ("counts are 0 after a refusal", report.reply == 0 || counts == [0; 3]),
        ("counts are within the lengths", (0..3).all(|i| counts[i] <= lengths[i])),
        ("token rows past the count are zero", tokens.iter().skip(counts[0]).all(|row| *row == TokenRow::default())),
        ("node rows past the count are zero", nodes.iter().skip(counts[1]).all(|row| *row == NodeRow::default())),
        ("answer rows past the count are zero", answers.iter().skip(counts[2]).all(|row| *row == AnswerRow::default())),
        ("token rows lie in the file", tokens.iter().take(counts[0]).all(|row| token_fits(file.len(), row))),
        ("node rows lie in the tables", nodes.iter().take(counts[1]).all(|row| node_fits(counts, row))),
        ("answers are of the kinds", answers.iter().take(counts[2]).all(|row| matches!(row.kind, 0..=5 | 16..=19))),
        ("the room has the strings, and zeros", room_fits(answers, room)),
    ];
    match demands.iter().find(|(_, kept)| !kept) {
        Some((demand, _)) => Err(format!("not so: {demand}: {report:?}")),
        None => Ok(()),
    }
}

fn number_fits(length: u64, lengths: Lent, report: &Report) -> bool {
    let number = report.number;
    match report.reply {
        0 => number == 0,
        1 => number == LARGEST as u64 && length > number,
        4 => number <= length,
        6..=8 => number > lengths[report.reply as usize - 6] as u64 && number <= 2 * length,
        ROOM_SHORT => number == lengths[3] as u64,
        _ => number < length,
    }
}

/// Whether the strings lie in the room one behind the other, none too long, in bytes that a literal may have; and zeros behind them.
fn room_fits(answers: &[AnswerRow], room: &[u8]) -> bool {
    let mut end = 0;
    for row in answers.iter().filter(|row| row.kind == STRING) {
        if row.number != end || row.length as usize > MAX_STRING {
            return false;
        }
        end += i64::from(row.length);
    }
    let strings = usize::try_from(end).ok().and_then(|end| room.split_at_checked(end));
    strings.is_some_and(|(used, rest)| {
        used.iter().all(|byte| (32..=126).contains(byte)) && rest.iter().all(|&byte| byte == 0)
    })
}

fn token_fits(length: usize, row: &TokenRow) -> bool {
    (1..=6).contains(&row.kind) && row.length > 0 && (row.start + row.length) as usize <= length
}

fn node_fits([tokens, nodes, _]: [usize; 3], row: &NodeRow) -> bool {
    let within = (row.token as usize) < tokens && (row.binding as usize) <= nodes;
    (1..=26).contains(&row.kind) && within && (1..=nodes).contains(&(row.size as usize))
}
