//! Times of the call and of the reference on files that are built to take long.

use crate::held::{held, Fault};
use compare::hostile::Family;
use compare::random::{needed, LARGEST};
use compare::timing::processor_time;
use product::{by_reference, Lengths, Tables};
use std::fmt;
use std::hint::black_box;

/// What no file may take longer than, in nanoseconds, and what four times the bytes may take at most.
pub const LIMIT: f64 = 50e6;
pub const GROWTH: f64 = 5.0;
/// Files are built in these sizes.
pub const SIZES: [usize; 2] = [LARGEST / 4, LARGEST];

/// One file, and the processor times of both in nanoseconds.
#[derive(Clone, Copy, Debug)]
pub struct Timed {
    pub reply: u32,
    pub proved: f64,
    pub reference: f64,
}

/// Holds the call to the reference on a file, and then times both, with tables of one row more than needed
/// and a room of one byte more, in runs that take `enough` time.
pub fn timed(name: &str, file: &[u8], enough: f64) -> Result<Timed, Fault> {
    let lent = needed(file, &by_reference).map(|length| length + 1);
    let reply = held(file, lent, || name.to_string())?.report.reply;
    let mut tables = Tables::new(Lengths::even(lent), 1);
    let proved = processor_time(enough, || tables.check(black_box(file)));
    let reference = processor_time(enough, || by_reference(black_box(file), lent));
    Ok(Timed { reply, proved, reference })
}

/// A family at both sizes.
pub struct Line {
    pub name: &'static str,
    pub sizes: [Timed; 2],
}

impl Line {
    pub fn new(Family { name, file }: Family, enough: f64) -> Result<Line, Fault> {
        let [quarter, whole] = SIZES.map(|size| timed(name, &file(size), enough));
        Ok(Line { name, sizes: [quarter?, whole?] })
    }

    /// How many times as long the larger file takes.
    fn growth(&self) -> f64 {
        self.sizes[1].proved / self.sizes[0].proved
    }

    pub fn is_slow(&self) -> bool {
        self.sizes.iter().any(|timed| timed.proved > LIMIT)
    }

    pub fn grows(&self) -> bool {
        self.growth() > GROWTH
    }
}

/// The head of the table of lines.
pub fn head() -> String {
    let sides = format!("{:>10}{:>11}", "proved", "reference");
    format!("{:42}{:>6}{sides}{sides}{:>8}{:>8}", "microseconds, at 16 KiB and at 64 KiB", "reply", "ratio", "growth")
}

impl fmt::Display for Line {
    fn fmt(&self, f: &mut fmt::Formatter) -> fmt::Result {
        write!(f, "{:42}{:6}", self.name, self.sizes[1].reply)?;
        for Timed { proved, reference, .. } in self.sizes {
            write!(f, "{:10.1}{:11.1}", proved / 1e3, reference / 1e3)?;
        }
        let [_, Timed { proved, reference, .. }] = self.sizes;
        write!(f, "{:8.2}{:8.2}", proved / reference, self.growth())?;
        let marks = [(self.is_slow(), "  slow"), (self.grows(), "  not linear")];
        marks.iter().filter(|(holds, _)| *holds).try_for_each(|(_, mark)| write!(f, "{mark}"))
    }
}
