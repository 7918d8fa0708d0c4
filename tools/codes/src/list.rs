//! The list of words and symbols.

use crate::FIRST_CODE;

/// A small letter and its capital are so far apart, and the same modulo this number.
const CASE: usize = (b'a' - b'A') as usize;

/// The terminals that have one spelling, in the order of their codes.
pub struct Terminals {
    /// The spelling of each symbol and its name.
    pub symbols: Vec<(String, String)>,
    pub words: Vec<String>,
}

impl Terminals {
    /// Those of `terminals.txt`.
    pub fn listed() -> Terminals {
        Terminals::read(include_str!("../terminals.txt"))
    }

    /// A line has a symbol and its name, or a word; a line that starts with `#` is a comment.
    fn read(list: &str) -> Terminals {
        let (mut symbols, mut words) = (Vec::new(), Vec::new());
        for line in list.lines().filter(|line| !line.starts_with('#')) {
            match line.split_whitespace().collect::<Vec<_>>()[..] {
                [] => {}
                [word] => words.push(word.to_string()),
                [symbol, name] if words.is_empty() => symbols.push((symbol.to_string(), name.to_string())),
                _ => panic!("terminals.txt: `{line}` is neither a symbol with its name, above the words, nor a word"),
            }
        }
        Terminals { symbols, words }
    }

    pub fn first_word(&self) -> usize {
        FIRST_CODE + self.symbols.len()
    }

    pub fn spellings(&self) -> Vec<&str> {
        let symbols = self.symbols.iter().map(|(spelling, _)| spelling.as_str());
        symbols.chain(self.words.iter().map(String::as_str)).collect()
    }

    pub fn longest(&self) -> usize {
        self.spellings().iter().map(|spelling| spelling.len()).max().unwrap_or(0)
    }

    /// By a code: where its spelling starts in the text of all spellings. The last entry is the text's end.
    pub fn offsets(&self) -> Vec<usize> {
        let mut offsets = vec![0; FIRST_CODE + 1];
        for spelling in self.spellings() {
            offsets.push(offsets[offsets.len() - 1] + spelling.len());
        }
        offsets
    }

    /// By the first byte of reserved words, modulo `CASE`: their last bytes, modulo the same, as bits.
    pub fn endings(&self) -> Vec<usize> {
        let mut endings = vec![0; CASE];
        for word in &self.words {
            let byte = |i: usize| usize::from(word.as_bytes()[i]) % CASE;
            endings[byte(0)] |= 1 << byte(word.len() - 1);
        }
        endings
    }
}
