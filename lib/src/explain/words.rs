//! The words and symbols that the grammar knows, by what they are for.

/// All reserved words (T9), in order.
#[rustfmt::skip]
pub const RESERVED: [&str; 119] = [
    "ABS", "ABSTRACT", "ACOS", "AGGREGATE", "ALIAS", "AND", "ANDOR", "ARRAY", "AS", "ASIN", "ATAN", "BAG", "BEGIN", "BINARY", "BLENGTH", "BOOLEAN",
    "BY", "CASE", "CONSTANT", "CONST_E", "CONTEXT", "COS", "DERIVE", "DIV", "ELSE", "END", "END_ALIAS", "END_CASE", "END_CONSTANT", "END_CONTEXT",
    "END_ENTITY", "END_FUNCTION", "END_IF", "END_LOCAL", "END_MODEL", "END_PROCEDURE", "END_REPEAT", "END_RULE", "END_SCHEMA", "END_TYPE", "ENTITY",
    "ENUMERATION", "ESCAPE", "EXISTS", "EXP", "FALSE", "FIXED", "FOR", "FORMAT", "FROM", "FUNCTION", "GENERIC", "HIBOUND", "HIINDEX", "IF", "IN",
    "INSERT", "INTEGER", "INVERSE", "LENGTH", "LIKE", "LIST", "LOBOUND", "LOCAL", "LOG", "LOG10", "LOG2", "LOGICAL", "LOINDEX", "MOD", "MODEL", "NOT",
    "NUMBER", "NVL", "ODD", "OF", "ONEOF", "OPTIONAL", "OR", "OTHERWISE", "PI", "PROCEDURE", "QUERY", "REAL", "REFERENCE", "REMOVE", "REPEAT",
    "RETURN", "ROLESOF", "RULE", "SCHEMA", "SELECT", "SELF", "SET", "SIN", "SIZEOF", "SKIP", "SQRT", "STRING", "SUBTYPE", "SUPERTYPE", "TAN", "THEN",
    "TO", "TRUE", "TYPE", "TYPEOF", "UNIQUE", "UNKNOWN", "UNTIL", "USE", "USEDIN", "VALUE", "VALUE_IN", "VALUE_UNIQUE", "VAR", "WHERE", "WHILE",
    "XOR",
];

/// Those of them that the grammar has.
#[rustfmt::skip]
const READ: [&str; 34] = [
    "AND", "BINARY", "BOOLEAN", "CONSTANT", "CONST_E", "DERIVE", "DIV", "END_CONSTANT", "END_ENTITY", "END_SCHEMA", "END_TYPE", "ENTITY",
    "ENUMERATION", "FALSE", "INTEGER", "LOGICAL", "MOD", "NOT", "NUMBER", "OF", "OPTIONAL", "OR", "PI", "REAL", "SCHEMA", "SELECT", "SELF", "STRING",
    "SUBTYPE", "TRUE", "TYPE", "UNKNOWN", "WHERE", "XOR",
];

pub const SIMPLE_TYPES: [&str; 7] = ["BINARY", "BOOLEAN", "INTEGER", "LOGICAL", "NUMBER", "REAL", "STRING"];
pub const SIGNS: [&str; 3] = ["+", "-", "NOT"];
pub const RELATIONS: [&str; 8] = ["<", ">", "<=", ">=", "<>", "=", ":<>:", ":=:"];
pub const ADDITIONS: [&str; 4] = ["+", "-", "OR", "XOR"];
pub const MULTIPLICATIONS: [&str; 5] = ["*", "/", "DIV", "MOD", "AND"];
pub const COMPARISONS: [&str; 2] = ["<", "<="];

fn is_one(text: &[u8], words: &[&str]) -> bool {
    words.iter().any(|word| text.eq_ignore_ascii_case(word.as_bytes()))
}

pub fn is_reserved(word: &[u8]) -> bool {
    is_one(word, &RESERVED)
}

/// Whether a word is reserved for what is not read (G26).
pub fn is_unread(word: &[u8]) -> bool {
    is_reserved(word) && !is_one(word, &READ)
}

pub fn is_operator(text: &[u8]) -> bool {
    [&RELATIONS[..], &ADDITIONS, &MULTIPLICATIONS, &["**"]].iter().any(|words| is_one(text, words))
}
