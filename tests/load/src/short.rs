//! Every expression of a few tokens from a small set, right and wrong ones, as that of a constant.

use crate::held::{held, Fault};
use crate::{Progress, Replies};
use compare::lanes;
use reference::Lent;

const HEADS: [&str; 2] = ["SCHEMA s; CONSTANT c : INTEGER :=", "SCHEMA s; CONSTANT c : STRING :="];
const FOOT: &str = " ; END_CONSTANT; END_SCHEMA;";
/// Operands that tell kinds, ends and cycles apart, an operator or sign of each rule of the grammar (G15 to G19), and
/// parentheses.
pub const TOKENS: [&str; 13] = ["0", "7", "%1", "'a'", "?", "c", "-", "+", "**", "DIV", "<", "(", ")"];
/// More than any of the texts needs.
const LENT: Lent = [32, 32, 2, 16];
/// Texts that a thread takes at a time.
const BLOCK: u64 = 4_096;

/// How many texts have at most so many tokens, behind either head.
pub fn count(most: u32) -> u64 {
    HEADS.len() as u64 * (0..=most).map(|tokens| (TOKENS.len() as u64).pow(tokens)).sum::<u64>()
}

/// The text of a number; shorter texts come first.
fn text(mut number: u64) -> String {
    let (set, heads) = (TOKENS.len() as u64, HEADS.len() as u64);
    let mut texts = 1;
    let mut file = HEADS[(number % heads) as usize].to_string();
    number /= heads;
    let mut tokens = 0;
    while number >= texts {
        number -= texts;
        texts *= set;
        tokens += 1;
    }
    for _ in 0..tokens {
        file += " ";
        file += TOKENS[(number % set) as usize];
        number /= set;
    }
    file + FOOT
}

/// Holds all texts of at most so many tokens.
pub fn run(most: u32, jobs: usize) -> Result<Replies, Fault> {
    let texts = count(most);
    let blocks = 0..texts.div_ceil(BLOCK);
    let progress = Progress::new(blocks.clone());
    let work = |replies: &mut Replies, block: u64| {
        for number in block * BLOCK..texts.min((block + 1) * BLOCK) {
            replies.add(&held(text(number).as_bytes(), LENT, || format!("text {number}"))?);
        }
        progress.step();
        Ok(())
    };
    lanes::run(blocks, jobs, work).map(Replies::sum)
}

#[cfg(test)]
mod tests {
    use super::{count, text};
    use std::collections::BTreeSet;

    #[test]
    fn texts_are_different_and_all_there() {
        let texts: BTreeSet<String> = (0..count(3)).map(text).collect();
        assert_eq!(texts.len(), 2 * (1 + 13 + 169 + 2_197));
        assert!(texts.contains("SCHEMA s; CONSTANT c : INTEGER := ( 7 ) ; END_CONSTANT; END_SCHEMA;"));
    }
}
