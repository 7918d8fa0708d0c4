//! Two checkers on one file, and how they differ.

use crate::shrink::shrink;
use reference::{Checked, Lent, Report, MAX_BYTES, MAX_STRING, ROOM_SHORT};
use std::fmt;
use std::panic::{catch_unwind, AssertUnwindSafe};

/// The kind of an answer that is a string.
pub const STRING: u8 = 5;

/// Checks a file with tables and a room of these lengths.
pub trait Checker: Fn(&[u8], Lent) -> Checked + Sync {}

impl<F: Fn(&[u8], Lent) -> Checked + Sync> Checker for F {}

/// What a checker left, or the message of its panic.
pub type Outcome = Result<Checked, String>;

/// A file on which two checkers differ.
#[derive(Debug)]
pub struct Difference {
    /// Which file it was before it was made smaller.
    pub name: String,
    pub lengths: Lent,
    pub left: Outcome,
    pub right: Outcome,
    pub file: Vec<u8>,
}

/// What both checkers leave of a file, or the difference between them.
pub fn hold(
    file: &[u8],
    lengths: Lent,
    left: &impl Checker,
    right: &impl Checker,
    name: impl FnOnce() -> String,
) -> Result<Checked, Box<Difference>> {
    match (run(left, file, lengths), run(right, file, lengths)) {
        (Ok(left), Ok(right)) if left == right => Ok(left),
        (left, right) => Err(Box::new(Difference { name: name(), lengths, left, right, file: file.to_vec() })),
    }
}

fn run(check: &impl Checker, file: &[u8], lengths: Lent) -> Outcome {
    catch_unwind(AssertUnwindSafe(|| check(file, lengths))).map_err(|panic| match panic.downcast::<String>() {
        Ok(message) => *message,
        Err(other) => other.downcast::<&str>().map_or_else(|_| "a panic".into(), |message| message.to_string()),
    })
}

/// The rows that the three tables need, as far as the file is read, from the refusals of tables too short; and the bytes that the room does.
pub fn needed(file: &[u8], check: &impl Checker) -> Lent {
    let mut needed = [0; 4];
    for (table, refusal) in [6, 7, 8].into_iter().enumerate() {
        let Report { reply, number, .. } = check(file, needed).report;
        if reply == refusal {
            needed[table] = (number as usize).min(2 * MAX_BYTES);
        }
    }
    if check(file, needed).report.reply == ROOM_SHORT {
        // The refusal does not say how much is needed: no string is longer than the longest.
        let [tokens, nodes, answers, _] = needed;
        needed[3] = strings(&check(file, [tokens, nodes, answers, answers * MAX_STRING])).map(<[u8]>::len).sum();
    }
    needed
}

/// The string answers of an accepted file, in the order of their rows; one that lies outside of the room is empty.
pub fn strings(checked: &Checked) -> impl Iterator<Item = &[u8]> {
    let rows = checked.answers.iter().take(checked.report.constants as usize).filter(|row| row.kind == STRING);
    rows.map(|row| {
        let start = usize::try_from(row.number).unwrap_or(usize::MAX);
        checked.room.get(start..start.saturating_add(row.length as usize)).unwrap_or_default()
    })
}

impl Difference {
    /// The same difference on a file that is smaller, as far as both replies stay.
    pub fn shrunk(mut self: Box<Self>, left: &impl Checker, right: &impl Checker) -> Box<Self> {
        let replies = self.replies();
        // Each panic is printed too, so only a few are tried.
        let tries = if replies.contains(&None) { 200 } else { 200_000 };
        let lengths = self.lengths;
        let again = |file: &[u8]| hold(file, lengths, left, right, String::new).err();
        let stays = |file: &[u8]| again(file).is_some_and(|difference| difference.replies() == replies);
        let smaller = shrink(std::mem::take(&mut self.file), tries, stays);
        match again(&smaller) {
            Some(difference) => Box::new(Difference { name: self.name, ..*difference }),
            None => Box::new(Difference { file: smaller, ..*self }),
        }
    }

    fn replies(&self) -> [Option<u32>; 2] {
        [&self.left, &self.right].map(|outcome| outcome.as_ref().ok().map(|checked| checked.report.reply))
    }
}

impl fmt::Display for Difference {
    fn fmt(&self, f: &mut fmt::Formatter) -> fmt::Result {
        writeln!(f, "{}, tables of {:?}", self.name, self.lengths)?;
        for (side, outcome) in [("left", &self.left), ("right", &self.right)] {
            match outcome {
                Err(message) => writeln!(f, "{side}: panic: {message}")?,
                Ok(checked) => {
                    let listing = catch_unwind(|| reference::listing(&self.file, checked)).unwrap_or_default();
                    writeln!(f, "{side}: {:?}\n{}", checked.report, String::from_utf8_lossy(&listing))?;
                }
            }
        }
        if let (Ok(left), Ok(right)) = (&self.left, &self.right) {
            first_row(f, "token", &left.tokens, &right.tokens)?;
            first_row(f, "node", &left.nodes, &right.nodes)?;
            first_row(f, "answer", &left.answers, &right.answers)?;
            first_row(f, "room", &left.room, &right.room)?;
        }
        write!(f, "file, {} bytes: b\"{}\"", self.file.len(), self.file.escape_ascii())
    }
}

/// The first row, or byte of the room, in which two tables differ.
fn first_row<T: fmt::Debug + PartialEq>(f: &mut fmt::Formatter, table: &str, left: &[T], right: &[T]) -> fmt::Result {
    match (0..left.len().max(right.len())).find(|&i| left.get(i) != right.get(i)) {
        Some(i) => writeln!(f, "{table} row {i}: {:?} and {:?}", left.get(i), right.get(i)),
        None => Ok(()),
    }
}
