//! Damaged files: tokens and bytes changed, removed, doubled and exchanged, and the limits of the reading overstepped.

use super::layout;
use super::rng::Rng;
use reference::MAX_STRING;

/// The most bytes that a file may have.
pub const LARGEST: usize = 65_536;

/// Tokens, and near-tokens, that stand where they should not.
const ODD: [&str; 48] = [
    "(", ")", "{", "}", "[", "]", ";", ":", ":=", ":=:", ":<>:", ":<>", ":<", "<*", "||", "|", "\\", ".", ",", "**",
    "*", "-", "--", "+", "?", "%", "%2", "'", "\"00\"", "(*", "*)", "5.e", "1.e+", "12ab", "_a", "SELF", "NOT", "IN",
    "LIKE", "ANDOR", "END_SCHEMA", "WHERE", "OPTIONAL", "LIST", "PI", "3.25", "'text'", "\u{e9}",
];
const OPERATORS: [&str; 18] =
    ["<", ">", "<=", ">=", "<>", "=", ":<>:", ":=:", "+", "-", "OR", "XOR", "*", "/", "DIV", "MOD", "AND", "**"];
/// Integers at and beyond the largest.
const LARGE: [&str; 5] = [
    "9223372036854775807", "9223372036854775808", "18446744073709551616", "000000000000000000000001",
    "99999999999999999999",
];
/// Remarks, strings and other tokens that lack a part, or have one too many.
const BROKEN: [&[u8]; 9] = [b"(*(*)*)", b"*)", b"--", b"'\t'", b"'\x7f'", b"'a\n", b"%", b"0.", b"\0"];

/// One to three damages to the tokens.
pub fn tokens(rng: &mut Rng, tokens: &mut Vec<String>) {
    for _ in 0..rng.between(1, 3) {
        let (i, j) = (rng.below(tokens.len()), rng.below(tokens.len()));
        match rng.below(11) {
            _ if tokens.is_empty() => return,
            0 => drop(tokens.remove(i)),
            1 => tokens.insert(i, tokens[i].clone()),
            2 => tokens.swap(i, j),
            3 => tokens[i] = tokens[j].clone(),
            4 => tokens[i] = rng.pick(&ODD).to_string(),
            5 => tokens.insert(i, rng.pick(&ODD).to_string()),
            6 | 7 => enlarge(rng, tokens),
            8 => nest(rng, tokens),
            9 => sign(rng, tokens),
            _ => operator(rng, tokens),
        }
    }
}

/// Makes a literal too large, or just not.
fn enlarge(rng: &mut Rng, tokens: &mut [String]) {
    let whole = |c: char| c.is_ascii_digit() || c == '%' || c == '\'';
    let literal = |token: &&mut String| token.starts_with(whole) && (token.starts_with('\'') || !token.contains('.'));
    let mut literals: Vec<&mut String> = tokens.iter_mut().filter(literal).collect();
    if literals.is_empty() {
        return;
    }
    let at = rng.below(literals.len());
    let (bits, bytes) = (rng.between(63, 66), rng.between(MAX_STRING, MAX_STRING + 2));
    *literals[at] = match literals[at].as_bytes()[0] {
        b'%' => format!("%{}", "01".repeat(40).split_at(bits).0),
        b'\'' => format!("'{}'", rng.pick(&["x", "''"]).repeat(bytes)),
        _ => rng.pick(&LARGE).to_string(),
    };
}

/// Wraps a literal in about as many parentheses, or intervals, as may be open.
fn nest(rng: &mut Rng, tokens: &mut Vec<String>) {
    let literal = |token: &String| token.starts_with(|c: char| c.is_ascii_digit() || c == '%') || token == "TRUE";
    let places: Vec<usize> = (0..tokens.len()).filter(|&i| literal(&tokens[i])).collect();
    if places.is_empty() {
        return;
    }
    let (at, deep) = (*rng.pick(&places), rng.between(62, 66));
    let (mut before, mut after) = (Vec::new(), Vec::new());
    for _ in 0..deep {
        if rng.one_in(4) {
            before.extend(["{", "0", "<"]);
            after.extend(["}", "1", "<="]);
        } else {
            before.push("(");
            after.push(")");
        }
    }
    after.reverse();
    tokens.splice(at + 1..at + 1, after.into_iter().map(String::from));
    tokens.splice(at..at, before.into_iter().map(String::from));
}

/// Puts a sign or NOT before an interval, a `type.item` or an operator.
fn sign(rng: &mut Rng, tokens: &mut Vec<String>) {
    let taken = |i: usize| tokens[i] == "{" || tokens[i + 1] == "." || OPERATORS.contains(&tokens[i].as_str());
    let places: Vec<usize> = (0..tokens.len().saturating_sub(1)).filter(|&i| taken(i)).collect();
    if !places.is_empty() {
        let at = *rng.pick(&places);
        tokens.insert(at, rng.pick(&["+", "-", "NOT"]).to_string());
    }
}

/// Exchanges an operator for another.
fn operator(rng: &mut Rng, tokens: &mut [String]) {
    let mut operators: Vec<&mut String> =
        tokens.iter_mut().filter(|token| OPERATORS.contains(&token.as_str())).collect();
    if !operators.is_empty() {
        let at = rng.below(operators.len());
        *operators[at] = rng.pick(&OPERATORS).to_string();
    }
}

/// One damage to the bytes.
pub fn bytes(rng: &mut Rng, file: &mut Vec<u8>) {
    let (i, j) = (rng.below(file.len()), rng.below(file.len()));
    match rng.below(12) {
        _ if file.is_empty() => file.push(rng.draw() as u8),
        0 => file[i] = rng.draw() as u8,
        1 => file[i] = *rng.pick(b"()*-'%\".:;<>=?_ 0a"),
        2 => drop(file.remove(i)),
        3 => file.insert(i, file[i]),
        4 => file.swap(i, j),
        5 => drop(file.drain(i.min(j)..i.max(j).min(i.min(j) + 20))),
        6 => file.truncate(i),
        7 => insert(file, i, b"(*"),
        8 => insert(file, i, b"'"),
        9 => {
            let broken = *rng.pick(&BROKEN);
            insert(file, i, broken);
        }
        10 => *file = noise(rng),
        _ => fill(rng, file),
    }
}

fn insert(file: &mut Vec<u8>, at: usize, what: &[u8]) {
    file.splice(at..at, what.iter().copied());
}

/// Random bytes, or the tokens of nothing.
fn noise(rng: &mut Rng) -> Vec<u8> {
    let length = rng.below(200);
    match rng.below(4) {
        0 => (0..length).map(|_| rng.draw() as u8).collect(),
        1 => (0..length).map(|_| rng.between(32, 126) as u8).collect(),
        2 => vec![b' '; length],
        _ => {
            let odd: Vec<String> = (0..length / 4).map(|_| rng.pick(&ODD).to_string()).collect();
            layout::lay_out(rng, &odd)
        }
    }
}

/// Spaces at the end up to the largest size, or just beyond; rarely, for these files are long.
fn fill(rng: &mut Rng, file: &mut Vec<u8>) {
    if rng.one_in(4) {
        let over = *rng.pick(&[0, 1, 1, 2, 500]);
        file.resize(LARGEST + over, *rng.pick(b"  \n;"));
    }
}
