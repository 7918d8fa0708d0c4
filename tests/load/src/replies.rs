//! How often each reply came.

use compare::random::{every_reply, REPLY_NUMBERS};
use reference::Checked;
use std::fmt;

#[derive(Clone, Debug, Default)]
pub struct Replies([u64; REPLY_NUMBERS]);

impl Replies {
    pub fn add(&mut self, checked: &Checked) {
        self.0[checked.report.reply as usize] += 1;
    }

    pub fn sum(all: Vec<Replies>) -> Replies {
        Replies(std::array::from_fn(|reply| all.iter().map(|replies| replies.0[reply]).sum()))
    }

    pub fn count(&self) -> u64 {
        self.0.iter().sum()
    }

    pub fn of(&self, reply: usize) -> u64 {
        self.0[reply]
    }
}

impl fmt::Display for Replies {
    fn fmt(&self, f: &mut fmt::Formatter) -> fmt::Result {
        write!(f, "{} files; replies", self.count())?;
        every_reply().filter(|&reply| self.0[reply] > 0).try_for_each(|reply| write!(f, " {reply}: {}", self.0[reply]))
    }
}
