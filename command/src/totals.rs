//! What came of all files together.

use std::fmt;
use std::time::Duration;
use woffulent::Reply;

#[derive(Clone, Debug, Default)]
pub struct Totals {
    /// How many files had the reply of each number.
    replies: [usize; 1 + Reply::RoomShort as usize],
    /// How many could not be read.
    unread: usize,
    /// How many bytes were checked.
    bytes: usize,
}

impl Totals {
    pub fn add(&mut self, reply: Reply, bytes: usize) {
        self.replies[usize::from(reply.number())] += 1;
        self.bytes += bytes;
    }

    pub fn add_unread(&mut self) {
        self.unread += 1;
    }

    pub fn join(&mut self, other: &Totals) {
        self.replies.iter_mut().zip(other.replies).for_each(|(count, more)| *count += more);
        self.unread += other.unread;
        self.bytes += other.bytes;
    }

    pub fn status(&self) -> u8 {
        match (self.unread, self.refused()) {
            (0, 0) => crate::ACCEPTED,
            (0, _) => crate::REFUSED,
            _ => crate::FAILED,
        }
    }

    fn refused(&self) -> usize {
        self.replies[1..].iter().sum()
    }

    /// With the time that it took.
    pub fn in_time(&self, time: Duration) -> impl fmt::Display + '_ {
        struct InTime<'a>(&'a Totals, Duration);
        impl fmt::Display for InTime<'_> {
            fn fmt(&self, f: &mut fmt::Formatter) -> fmt::Result {
                let InTime(totals, time) = self;
                let seconds = time.as_secs_f64();
                write!(f, "{totals}, {} bytes in {seconds:.3} s", totals.bytes)?;
                // A clock may stand still over a few small files.
                let speed = if seconds > 0.0 { totals.bytes as f64 / seconds } else { 0.0 };
                write!(f, ", {speed:.0} bytes/s")
            }
        }
        InTime(self, time)
    }
}

impl fmt::Display for Totals {
    fn fmt(&self, f: &mut fmt::Formatter) -> fmt::Result {
        write!(f, "{} accepted, {} refused", self.replies[0], self.refused())?;
        let counted = (1..self.replies.len()).filter(|&reply| self.replies[reply] > 0);
        let by: Vec<String> = counted.map(|reply| format!("{} by {reply}", self.replies[reply])).collect();
        if !by.is_empty() {
            write!(f, " ({})", by.join(", "))?;
        }
        if self.unread > 0 {
            write!(f, ", {} not read", self.unread)?;
        }
        Ok(())
    }
}
