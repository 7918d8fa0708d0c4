//! What follows from the list of words and symbols, `terminals.txt`: the code of each terminal, and the tables by which a
//! spelling is found. `outputs` gives each file that is written, with its text.

mod hash;
mod layout;
mod list;

pub use hash::Hash;
pub use list::Terminals;

use layout::{bytes_in_lines, entries_in_lines, numbers_in_lines, strings_in_lines, text_in_lines};

/// The codes of an identifier and of the literals; the literals have the kinds of their tokens.
const OPEN: [&str; 5] = ["IDENTIFIER", "INTEGER_LITERAL", "REAL_LITERAL", "STRING_LITERAL", "BINARY_LITERAL"];

/// The code of the first terminal of the list.
pub const FIRST_CODE: usize = OPEN.len() + 1;

const MODULES: [&str; 9] = ["answers", "ends", "labels", "limits", "nodes", "replies", "roles", "tokens", "types"];

/// Each file that is written, from the top of the repository, and its text.
pub fn outputs() -> Vec<(&'static str, String)> {
    let terminals = Terminals::listed();
    let hash = Hash::of(&terminals);
    vec![
        ("crates/codes/src/lib.rt", codes(&terminals)),
        ("crates/terminals/src/table.rt", table(&terminals, &hash)),
        ("crates/terminals/specs/Spellings.antt", definitions(&terminals, &hash)),
    ]
}

/// The crate of names: a constant for each terminal.
fn codes(terminals: &Terminals) -> String {
    let mut text =
        String::from("// Numbers with names, and nothing else. The terminals stand here, the rest in modules.\n");
    text += "// This file is written by tools/codes from its list of words and symbols.\n#![tactic(auto)]\n\n";
    for module in MODULES {
        text += &format!("pub mod {module};\n");
    }
    let constant = |name: &str, code: usize| format!("pub const {name}: u8 = {code};\n\n");
    text += "\n// No terminal begins, or the tokens are at their end.\n";
    text += &constant("NONE", 0);
    text += "// A word that is not reserved, and the literals.\n";
    for (i, name) in OPEN.iter().enumerate() {
        text += &constant(name, i + 1);
    }
    text += "// The symbols.\n";
    for (i, (_, name)) in terminals.symbols.iter().enumerate() {
        text += &constant(name, FIRST_CODE + i);
    }
    text += "// The reserved words: every code from the first of them on is one.\n";
    text += &format!("pub const FIRST_WORD: u8 = {};\n\n", terminals.words[0]);
    for (i, word) in terminals.words.iter().enumerate() {
        text += &constant(word, terminals.first_word() + i);
    }
    text.trim_end().to_string() + "\n"
}

/// The tables of the code.
fn table(terminals: &Terminals, hash: &Hash) -> String {
    let spellings = terminals.spellings();
    let offsets = terminals.offsets();
    let endings = terminals.endings();
    let text: String = spellings.concat();
    let [first, length, last, before] = hash.factors;
    format!(
        "// The tables by which a word or a symbol is found; specs/Spellings has them as lists.
// This file is written by tools/codes from its list of words and symbols.

// The hash of a spelling: its first byte, its length, its last byte and the byte before that, each times a factor, modulo the
// number of slots. No two spellings have the same.
pub const BY_FIRST: usize = {first};

pub const BY_LENGTH: usize = {length};

pub const BY_LAST: usize = {last};

pub const BY_BEFORE: usize = {before};

pub const SLOT_COUNT: usize = {slot_count};

// The length of the longest spelling.
pub const LONGEST: usize = {longest};

// The code of the spelling that has a hash, or 0.
pub const SLOTS: [u8; SLOT_COUNT] = *b\"\\
{slots}\";

// The spellings, one after the other.
pub const TEXT_SIZE: usize = {text_size};

pub const TEXT: [u8; TEXT_SIZE] = *b\"\\
{text}\";

// Where the spelling of a code starts in the text; the next entry is where it ends.
pub const OFFSET_COUNT: usize = {offset_count};

pub const OFFSETS: [usize; OFFSET_COUNT] = [
{offsets}];

// A letter modulo this number is the same in both cases.
pub const ENDING_COUNT: usize = {ending_count};

// By the first byte of reserved words, modulo the number of entries: their last bytes, modulo the same, as bits.
pub const ENDINGS: [u32; ENDING_COUNT] = [
{endings}];
",
        slot_count = hash.slots.len(),
        longest = terminals.longest(),
        slots = bytes_in_lines(&hash.slots),
        text_size = text.len(),
        text = text_in_lines(&text),
        offset_count = offsets.len(),
        offsets = entries_in_lines(&offsets),
        ending_count = endings.len(),
        endings = entries_in_lines(&endings),
    )
}

/// The same tables as the definitions have them.
fn definitions(terminals: &Terminals, hash: &Hash) -> String {
    let number =
        |note: &str, name: &str, value: usize| format!("\n-- {note}\nabbrev pub {name} : ℕ\n{name} = {value}\n");
    let list = |note: &str, name: &str, values: Vec<usize>| {
        format!("\n-- {note}\nabbrev pub {name} : List ℕ\n{name} =\n{}\n", numbers_in_lines(&values))
    };
    let [first, length, last, before] = hash.factors;
    let text: String = terminals.spellings().concat();
    let mut out = String::from("-- The tables by which a word or a symbol is found.\n");
    out += "-- This file is written by tools/codes from its list of words and symbols.\n";
    out += "use Rattle.std.specs.Prelude.{List, [], ◌∷◌, ◌++◌, ℕ, ◌+◌, ◌*◌, ◌%◌}\n";
    out += "use Rattle.express.specs.Tokens.Terminal.{bytes}\n";
    out += &number(
        "how many spellings there are, and the codes of the first one and of the first word",
        "spelling_count",
        terminals.spellings().len(),
    );
    out += &format!("\nabbrev pub first_code : ℕ\nfirst_code = {FIRST_CODE}\n");
    out += &format!("\nabbrev pub first_word : ℕ\nfirst_word = {}\n", terminals.first_word());
    out += &number("the length of the longest spelling", "longest", terminals.longest());
    out += &number("the number of slots", "slot_count", hash.slots.len());
    out += &format!(
        "\n-- from the first byte, the length, the last byte and the byte before that
abbrev pub mixed : ℕ → ℕ → ℕ → ℕ → ℕ
mixed first n last before = (first * {first} + n * {length} + last * {last} + before * {before}) % slot_count\n"
    );
    out += &list(
        "the code of the spelling that has a hash, or 0",
        "slots",
        hash.slots.iter().map(|&code| code.into()).collect(),
    );
    out += &number("how many bytes the spellings have", "text_size", text.len());
    out += &format!(
        "\n-- the spellings, one after the other\nabbrev pub text : List ℕ\ntext =\n{}\n",
        strings_in_lines(&text)
    );
    out += &list(
        "where the spelling of a code starts in the text; the next entry is where it ends",
        "offsets",
        terminals.offsets(),
    );
    out += &number("a letter modulo this number is the same in both cases", "ending_count", terminals.endings().len());
    out += &list(
        "by the first byte of reserved words, modulo the number of entries: their last bytes, modulo the same, as bits",
        "endings",
        terminals.endings(),
    );
    out
}
