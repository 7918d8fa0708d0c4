//! What came of the files, counted.

use super::Sort;
use reference::{Checked, ROOM_SHORT};
use std::fmt;

/// Replies are counted by their numbers, the last of which is that of a room too short.
pub const REPLY_NUMBERS: usize = ROOM_SHORT as usize + 1;

/// Every reply that there is; the numbers between are kinds of answers.
pub fn every_reply() -> impl Iterator<Item = usize> {
    (0..16).chain([ROOM_SHORT as usize])
}

/// Every kind of answer, the ends among them.
pub const ANSWER_KINDS: [usize; 10] = [0, 1, 2, 3, 4, 5, 16, 17, 18, 19];

/// How often each reply came for each sort of file, and each kind of answer in all.
#[derive(Clone, Debug, Default)]
pub struct Tally {
    pub replies: [[u64; REPLY_NUMBERS]; 3],
    pub answers: [u64; 20],
}

impl Tally {
    pub fn add(&mut self, sort: Sort, checked: &Checked) {
        let report = checked.report;
        self.replies[sort as usize][report.reply as usize] += 1;
        for row in &checked.answers[..report.constants as usize] {
            self.answers[row.kind as usize] += 1;
        }
    }

    /// All of these as one.
    pub fn sum(tallies: Vec<Tally>) -> Tally {
        let mut sum = Tally::default();
        tallies.iter().for_each(|tally| sum.join(tally));
        sum
    }

    fn join(&mut self, other: &Tally) {
        let mine = self.replies.as_flattened_mut().iter_mut().chain(&mut self.answers);
        mine.zip(other.replies.as_flattened().iter().chain(&other.answers)).for_each(|(sum, more)| *sum += more);
    }

    /// How often a reply came in all.
    pub fn reply(&self, reply: usize) -> u64 {
        self.replies.iter().map(|of| of[reply]).sum()
    }
}

impl fmt::Display for Tally {
    fn fmt(&self, f: &mut fmt::Formatter) -> fmt::Result {
        writeln!(f, "reply   well-typed  loose  damaged")?;
        for reply in every_reply() {
            let [a, b, c] = [0, 1, 2].map(|sort| self.replies[sort][reply]);
            writeln!(f, "{reply:5}  {a:11}  {b:5}  {c:7}")?;
        }
        write!(f, "answers by kind:")?;
        ANSWER_KINDS.iter().try_for_each(|&kind| write!(f, " {kind}: {}", self.answers[kind]))
    }
}
