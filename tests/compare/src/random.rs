//! Seeded random files of three sorts, and the comparison of two checkers on them.

mod damage;
mod declarations;
mod demand;
mod driver;
mod expressions;
mod layout;
mod model;
mod rng;
mod source;
mod tally;

pub use crate::difference::needed;
pub use damage::LARGEST;
pub use demand::demand_one;
pub use driver::{compare, compare_one};
pub use rng::Rng;
pub use source::Strings;
pub use tally::{every_reply, Tally, ANSWER_KINDS, REPLY_NUMBERS};

use reference::Lent;
use source::Source;

/// How a file is built.
#[derive(Clone, Copy, Debug, PartialEq, Eq)]
pub enum Sort {
    WellTyped,
    Loose,
    Damaged,
}

/// The sort and size of the file of a seed: mostly small, a few up to the largest.
pub fn plan(seed: u64) -> (Sort, usize) {
    let mut rng = Rng::new(seed ^ 0x706c_616e);
    let sort = *rng.pick(&[Sort::WellTyped, Sort::Loose, Sort::Damaged]);
    let size = match rng.below(1000) {
        0..=799 if sort == Sort::Loose => rng.between(100, 700),
        0..=799 => rng.between(40, 400),
        800..=969 => rng.between(400, 4_000),
        970..=996 => rng.between(4_000, 16_000),
        _ => rng.between(16_000, LARGEST),
    };
    (sort, size)
}

/// The file of a seed.
pub fn file(seed: u64) -> Vec<u8> {
    let (sort, size) = plan(seed);
    match sort {
        Sort::WellTyped => well_typed(seed, size),
        Sort::Loose => loose(seed, size),
        Sort::Damaged => damaged(seed, size),
    }
}

/// A file that has answers for all its constants.
pub fn well_typed(seed: u64, size: usize) -> Vec<u8> {
    undamaged(Source::new, seed, size)
}

/// The same with this share of strings, whatever the seed.
pub fn well_typed_with(strings: Strings, seed: u64, size: usize) -> Vec<u8> {
    undamaged(|seed, size| Source::new(seed, size).with(strings), seed, size)
}

/// A file of the grammar whose names and kinds are often wrong.
pub fn loose(seed: u64, size: usize) -> Vec<u8> {
    undamaged(Source::loose, seed, size)
}

fn undamaged(source: impl Fn(u64, usize) -> Source, seed: u64, size: usize) -> Vec<u8> {
    let mut drawn = source(seed, size);
    let tokens = declarations::file(&mut drawn, size);
    let file = laid_out(&mut drawn.rng, &tokens);
    if file.len() > LARGEST {
        return undamaged(source, seed, size * 3 / 4);
    }
    file
}

/// A file of the other sorts with some damage.
pub fn damaged(seed: u64, size: usize) -> Vec<u8> {
    let tidy = Rng::new(!seed).one_in(2);
    let mut source = if tidy { Source::new(seed, size) } else { Source::loose(seed, size) };
    let mut tokens = declarations::file(&mut source, size);
    let rng = &mut source.rng;
    let by_tokens = rng.one_in(2);
    if by_tokens {
        damage::tokens(rng, &mut tokens);
    }
    let mut file = laid_out(rng, &tokens);
    if !by_tokens || rng.one_in(8) {
        (0..rng.between(1, 2)).for_each(|_| damage::bytes(rng, &mut file));
    }
    file
}

/// A layout of the tokens, within the largest size if any is.
fn laid_out(rng: &mut Rng, tokens: &[String]) -> Vec<u8> {
    let file = layout::lay_out(rng, tokens);
    if file.len() > LARGEST {
        return layout::dense(rng, tokens);
    }
    file
}

/// Lengths of the tables and the room for a file that needs so much of each: mostly enough, sometimes just enough or too little.
pub fn lengths(seed: u64, needed: Lent) -> Lent {
    let mut rng = Rng::new(seed ^ 0x6c65_6e67);
    let tight = rng.one_in(4);
    needed.map(|needed| match rng.below(8) {
        _ if !tight => needed + rng.below(20),
        0 => needed.saturating_sub(1),
        1 => rng.below(needed),
        2 => 0,
        3 => needed + 500,
        _ => needed,
    })
}
