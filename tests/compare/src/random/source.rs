//! What every part of a file draws from: numbers, a pool of names, and slips, the mistakes of loosely built files.

use super::rng::Rng;
use std::collections::BTreeSet;

/// A mistake that a loosely built file may make, each leading to other refusals.
#[derive(Clone, Copy)]
pub enum Slip {
    Duplicate,
    TypeName,
    TypeCycle,
    SuperCycle,
    Name,
    Clash,
    ConstantCycle,
    Unevaluated,
    Misfit,
}

const SLIPS: usize = 9;
/// None of these, with any of the endings, is reserved.
const STEMS: [&str; 20] = [
    "a", "b", "c", "d", "e", "f", "x", "y", "z", "alpha", "step", "mask", "item_", "end_", "types", "pi_", "true_",
    "selfish", "schema_", "a_rather_long_name_with_many_parts",
];
const ENDINGS: [&str; 6] = ["", "", "1", "_2", "00", "_"];

/// How many of the constants and operands are strings.
#[derive(Clone, Copy, Debug, PartialEq, Eq)]
pub enum Strings {
    None,
    Some,
    Most,
}

pub struct Source {
    pub rng: Rng,
    strings: Strings,
    /// A slip of each sort happens once in so many places; 0 is never.
    slips: [usize; SLIPS],
    pool: Vec<String>,
    fresh: usize,
    /// Whether references go to what was declared just before, which makes long chains with many paths.
    pub near: bool,
}

impl Source {
    /// A source without slips, for a file of about `size` bytes.
    pub fn new(seed: u64, size: usize) -> Self {
        let mut rng = Rng::new(seed);
        let names = rng.between(6, 12 + size / 60);
        let pool = (0..names).map(|_| format!("{}{}", rng.pick(&STEMS), rng.pick(&ENDINGS))).collect();
        let near = rng.one_in(4);
        // Drawn apart, so that a file without strings is the same whatever share the others have.
        let strings = *Rng::new(seed ^ 0x7374_7269).pick(&[Strings::None, Strings::None, Strings::Some, Strings::Most]);
        Source { rng, strings, slips: [0; SLIPS], pool, fresh: 0, near }
    }

    /// The same with another share of strings.
    pub fn with(self, strings: Strings) -> Self {
        Source { strings, ..self }
    }

    /// Whether the next constant or operand of any kind is a string.
    pub fn string_is_due(&mut self) -> bool {
        match self.strings {
            Strings::None => false,
            Strings::Some => self.rng.one_in(4),
            Strings::Most => !self.rng.one_in(4),
        }
    }

    /// The same with slips: mostly of one or two sorts, so that the later stages are reached too.
    pub fn loose(seed: u64, size: usize) -> Self {
        let mut source = Source::new(seed, size);
        let rng = &mut source.rng;
        let often = *rng.pick(&[2, 3, 5, 10, 30]);
        if rng.one_in(4) {
            source.slips = [often * 2; SLIPS];
        } else {
            for _ in 0..rng.between(1, 2) {
                source.slips[rng.below(SLIPS)] = often;
            }
        }
        source
    }

    /// Whether slips of this sort happen at all.
    pub fn prone(&self, slip: Slip) -> bool {
        self.slips[slip as usize] > 0
    }

    pub fn slip(&mut self, slip: Slip) -> bool {
        let often = self.slips[slip as usize];
        self.prone(slip) && self.rng.one_in(often)
    }

    /// One of those declared so far, of which there are some.
    pub fn earlier<'a, T>(&mut self, declared: &'a [T]) -> &'a T {
        let from = if self.near { declared.len().saturating_sub(3) } else { 0 };
        self.rng.pick(&declared[from..])
    }

    /// Any name of the pool, whatever it means.
    pub fn any_name(&mut self) -> String {
        self.rng.pick(&self.pool).clone()
    }

    /// A name that is not yet in `taken`, which it then is.
    pub fn fresh(&mut self, taken: &mut BTreeSet<String>) -> String {
        for _ in 0..6 {
            let name = self.any_name();
            if taken.insert(name.clone()) {
                return name;
            }
        }
        loop {
            self.fresh += 1;
            let name = format!("n{}", self.fresh);
            if taken.insert(name.clone()) {
                return name;
            }
        }
    }

    /// As `fresh`, but a slip declares one of `own` again.
    pub fn declare(&mut self, taken: &mut BTreeSet<String>, own: &[String]) -> String {
        // One of three, for such a file is refused before anything else in it counts.
        if !own.is_empty() && self.slip(Slip::Duplicate) && self.rng.one_in(3) {
            return self.rng.pick(own).clone();
        }
        self.fresh(taken)
    }
}
