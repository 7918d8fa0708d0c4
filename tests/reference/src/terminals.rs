//! Tokens to the terminals of the grammar: reserved words and symbols are told apart here, once.

use crate::{tokens, words, TokenRow};

/// A terminal as the grammar tells them apart.
#[derive(Clone, Copy, Debug, PartialEq, Eq)]
pub enum Terminal {
    /// The input has stopped.
    End,
    /// A reserved word or symbol that no rule of the grammar uses.
    Unused,
    Identifier,
    IntegerLiteral,
    RealLiteral,
    StringLiteral,
    BinaryLiteral,
    Question,
    Dot,
    Comma,
    Semicolon,
    Colon,
    Becomes,
    OpenParenthesis,
    CloseParenthesis,
    OpenBrace,
    CloseBrace,
    Plus,
    Minus,
    Times,
    Divide,
    Power,
    Less,
    LessOrEqual,
    Greater,
    GreaterOrEqual,
    Equal,
    NotEqual,
    InstanceEqual,
    InstanceNotEqual,
    And,
    Binary,
    Boolean,
    Constant,
    ConstE,
    Derive,
    Div,
    EndConstant,
    EndEntity,
    EndSchema,
    EndType,
    Entity,
    Enumeration,
    False,
    Integer,
    Logical,
    Mod,
    Not,
    Number,
    Of,
    Optional,
    Or,
    Pi,
    Real,
    Schema,
    Select,
    SelfWord,
    String,
    Subtype,
    True,
    Type,
    Unknown,
    Where,
    Xor,
}

use Terminal::*;

/// The reserved words that some rule uses.
const USED: [(&str, Terminal); 34] = [
    ("and", And),
    ("binary", Binary),
    ("boolean", Boolean),
    ("constant", Constant),
    ("const_e", ConstE),
    ("derive", Derive),
    ("div", Div),
    ("end_constant", EndConstant),
    ("end_entity", EndEntity),
    ("end_schema", EndSchema),
    ("end_type", EndType),
    ("entity", Entity),
    ("enumeration", Enumeration),
    ("false", False),
    ("integer", Integer),
    ("logical", Logical),
    ("mod", Mod),
    ("not", Not),
    ("number", Number),
    ("of", Of),
    ("optional", Optional),
    ("or", Or),
    ("pi", Pi),
    ("real", Real),
    ("schema", Schema),
    ("select", Select),
    ("self", SelfWord),
    ("string", String),
    ("subtype", Subtype),
    ("true", True),
    ("type", Type),
    ("unknown", Unknown),
    ("where", Where),
    ("xor", Xor),
];

/// The other reserved words of clause 7.2.
#[rustfmt::skip]
const UNUSED: [&str; 85] = [
    "abs", "abstract", "acos", "aggregate", "alias", "andor", "array", "as", "asin", "atan", "bag", "begin",
    "blength", "by", "case", "context", "cos", "else", "end", "end_alias", "end_case", "end_context", "end_function",
    "end_if", "end_local", "end_model", "end_procedure", "end_repeat", "end_rule", "escape", "exists", "exp", "fixed",
    "for", "format", "from", "function", "generic", "hibound", "hiindex", "if", "in", "insert", "inverse", "length",
    "like", "list", "lobound", "local", "log", "log10", "log2", "loindex", "model", "nvl", "odd", "oneof",
    "otherwise", "procedure", "query", "reference", "remove", "repeat", "return", "rolesof", "rule", "set", "sin",
    "sizeof", "skip", "sqrt", "supertype", "tan", "then", "to", "typeof", "unique", "until", "use", "usedin", "value",
    "value_in", "value_unique", "var", "while",
];

const SLOTS: usize = 512;

/// A hash table of the reserved words with linear probing, by their packed spelling (0 is a free slot).
static RESERVED: [(u128, Terminal); SLOTS] = reserved();

const fn reserved() -> [(u128, Terminal); SLOTS] {
    let mut table = [(0, Identifier); SLOTS];
    let mut i = 0;
    while i < USED.len() {
        insert(&mut table, USED[i].0, USED[i].1);
        i += 1;
    }
    i = 0;
    while i < UNUSED.len() {
        insert(&mut table, UNUSED[i], Unused);
        i += 1;
    }
    table
}

const fn insert(table: &mut [(u128, Terminal); SLOTS], word: &str, terminal: Terminal) {
    let key = words::packed(word.as_bytes());
    let mut slot = slot(key);
    while table[slot].0 != 0 {
        slot = (slot + 1) % SLOTS;
    }
    table[slot] = (key, terminal);
}

const fn slot(key: u128) -> usize {
    (words::mixed(key) >> 55) as usize
}

/// The terminal of each token.
pub fn classify(bytes: &[u8], tokens: &[TokenRow]) -> Vec<Terminal> {
    tokens.iter().map(|token| terminal(bytes, token)).collect()
}

fn terminal(bytes: &[u8], token: &TokenRow) -> Terminal {
    match token.kind {
        tokens::WORD => word(bytes, token),
        tokens::INTEGER => IntegerLiteral,
        tokens::REAL => RealLiteral,
        tokens::STRING => StringLiteral,
        tokens::BINARY => BinaryLiteral,
        _ => symbol(tokens::text(bytes, token)),
    }
}

/// No reserved word is too long to be packed.
fn word(bytes: &[u8], token: &TokenRow) -> Terminal {
    let Some(key) = words::packed_token(bytes, token) else { return Identifier };
    let mut at = slot(key);
    loop {
        match RESERVED[at] {
            (0, _) => return Identifier,
            (other, terminal) if other == key => return terminal,
            _ => at = (at + 1) % SLOTS,
        }
    }
}

fn symbol(text: &[u8]) -> Terminal {
    match text {
        &[byte] => SYMBOLS[byte as usize],
        b":=" => Becomes,
        b"**" => Power,
        b"<=" => LessOrEqual,
        b">=" => GreaterOrEqual,
        b"<>" => NotEqual,
        b":=:" => InstanceEqual,
        b":<>:" => InstanceNotEqual,
        _ => Unused,
    }
}

/// The terminals of symbols of one byte.
static SYMBOLS: [Terminal; 256] = symbols();

const fn symbols() -> [Terminal; 256] {
    let mut table = [Unused; 256];
    table[b'?' as usize] = Question;
    table[b'.' as usize] = Dot;
    table[b',' as usize] = Comma;
    table[b';' as usize] = Semicolon;
    table[b':' as usize] = Colon;
    table[b'(' as usize] = OpenParenthesis;
    table[b')' as usize] = CloseParenthesis;
    table[b'{' as usize] = OpenBrace;
    table[b'}' as usize] = CloseBrace;
    table[b'+' as usize] = Plus;
    table[b'-' as usize] = Minus;
    table[b'*' as usize] = Times;
    table[b'/' as usize] = Divide;
    table[b'<' as usize] = Less;
    table[b'>' as usize] = Greater;
    table[b'=' as usize] = Equal;
    table
}

#[cfg(test)]
mod tests {
    use super::*;

    /// The terminal of a word, with more bytes after it and with none.
    fn of(spelling: &str) -> Terminal {
        let token = TokenRow { kind: tokens::WORD, start: 1, length: spelling.len() as u32 };
        let short = format!(" {spelling}");
        let long = format!(" {spelling};END_SCHEMA;END_SCHEMA;");
        let found = word(short.as_bytes(), &token);
        assert_eq!(found, word(long.as_bytes(), &token), "{spelling}");
        found
    }

    #[test]
    fn reserved_words_are_found_without_case() {
        for (spelling, terminal) in USED {
            assert_eq!(of(spelling), terminal);
            assert_eq!(of(&spelling.to_uppercase()), terminal);
        }
        for spelling in UNUSED {
            assert_eq!(of(spelling), Unused, "{spelling}");
        }
        assert_eq!(USED.len() + UNUSED.len(), 119);
    }

    #[test]
    fn other_words_are_identifiers() {
        for spelling in ["press", "a", "end_procedures", "in_", "log1", "truth", "nots", "a_word_longer_than_sixteen"] {
            assert_eq!(of(spelling), Identifier, "{spelling}");
        }
    }
}
