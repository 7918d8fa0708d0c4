//! A plain Rust checker of EXPRESS constants, the independent yardstick of the proved one.
//!
//! The stages follow the paper's order: [`tokens`] (replies 1, 2, 3), [`terminals`], [`parser`] (4, 5), [`outline`],
//! [`symbols`], [`names`] (9 to 13), [`kinds`] (14, 15) and [`evaluation`]; [`check`] adds the lengths of the tables
//! (6, 7, 8) and of the room (20).
#![forbid(unsafe_code)]

pub mod evaluation;
mod graph;
mod inheritance;
pub mod kinds;
mod listing;
pub mod names;
pub mod outline;
pub mod parser;
pub mod symbols;
pub mod terminals;
pub mod tokens;
mod words;

pub use listing::listing;
pub use parser::SyntaxRow;

use evaluation::Answers;
use outline::Outline;

/// The longest file that is read, in bytes.
pub const MAX_BYTES: usize = 65_536;

/// The longest string, in bytes of its value.
pub const MAX_STRING: usize = 255;

/// The rows of the token, node and answer tables that are lent, and the bytes of the room for strings.
pub type Lent = [usize; 4];

/// What the listing program lends.
pub const PROGRAM_LENGTHS: Lent = [8_192, 8_192, 1_024, 261_120];

/// The reply where the room is shorter than all string answers together.
pub const ROOM_SHORT: u32 = 20;

/// By which rules a file is checked: each level has those of the levels before it.
#[derive(Clone, Copy, Debug, PartialEq, Eq, PartialOrd, Ord)]
pub enum Level {
    /// Strings are not evaluated, and may be of any length.
    Base,
    /// Constants may be strings.
    Strings,
}

impl Level {
    /// The level of the proved checker, and of every function here that is told none.
    pub const NEWEST: Level = Level::Strings;
}

/// Reply, number beside it, and the three counts (0 after a refusal).
#[derive(Clone, Copy, Debug, Default, PartialEq, Eq)]
pub struct Report {
    pub reply: u32,
    pub number: u64,
    pub tokens: u32,
    pub nodes: u32,
    pub constants: u32,
}

#[derive(Clone, Copy, Debug, Default, PartialEq, Eq)]
pub struct TokenRow {
    pub kind: u8,
    pub start: u32,
    pub length: u32,
}

#[derive(Clone, Copy, Debug, Default, PartialEq, Eq)]
pub struct NodeRow {
    pub kind: u8,
    pub token: u32,
    pub size: u32,
    pub binding: u32,
}

#[derive(Clone, Copy, Debug, Default, PartialEq, Eq)]
pub struct AnswerRow {
    pub kind: u8,
    pub number: i64,
    pub length: u32,
}

/// What a check leaves: the report, and every lent table at its full lent length.
#[derive(Clone, Debug, Default, PartialEq, Eq)]
pub struct Checked {
    pub report: Report,
    pub tokens: Vec<TokenRow>,
    pub nodes: Vec<NodeRow>,
    pub answers: Vec<AnswerRow>,
    pub room: Vec<u8>,
}

/// A refusal: its reply and the number beside it, a place in bytes, a count of entries needed or the room's length.
#[derive(Clone, Copy, Debug, PartialEq, Eq)]
pub struct Refusal {
    pub reply: u32,
    pub number: u64,
}

/// A refusal of the stages after the parser, located by the token that names the fault.
#[derive(Clone, Copy, Debug, PartialEq, Eq)]
pub struct Fault {
    pub reply: u32,
    pub token: u32,
}

impl Fault {
    fn located(self, tokens: &[TokenRow]) -> Refusal {
        let start = tokens[self.token as usize].start;
        Refusal { reply: self.reply, number: u64::from(start) }
    }
}

/// One stage's table at its lent length, and the count of rows or the refusal. After a refusal the rows are zero.
#[derive(Clone, Debug, PartialEq, Eq)]
pub struct Stage<Row> {
    pub rows: Vec<Row>,
    pub outcome: Result<u32, Refusal>,
}

impl<Row: Clone + Default> Stage<Row> {
    fn new(outcome: Result<Vec<Row>, Refusal>, lent: usize) -> Self {
        match outcome {
            Ok(rows) => Stage { outcome: Ok(count(&rows)), rows: padded(rows, lent) },
            Err(refusal) => Stage { outcome: Err(refusal), rows: padded(Vec::new(), lent) },
        }
    }
}

/// Everything that the stages found out about an accepted file.
struct Accepted {
    tokens: Vec<TokenRow>,
    nodes: Vec<NodeRow>,
    answers: Answers,
}

/// Checks a file with tables and a room of the given lengths.
pub fn check(bytes: &[u8], lent: Lent) -> Checked {
    check_at(Level::NEWEST, bytes, lent)
}

/// The same by the rules of a level.
pub fn check_at(level: Level, bytes: &[u8], lent: Lent) -> Checked {
    let [token_rows, node_rows, answer_rows, room_bytes] = lent;
    match accept(level, bytes, lent) {
        Ok(Accepted { tokens, nodes, answers: Answers { rows: answers, room } }) => Checked {
            report: Report {
                reply: 0,
                number: 0,
                tokens: count(&tokens),
                nodes: count(&nodes),
                constants: count(&answers),
            },
            tokens: padded(tokens, token_rows),
            nodes: padded(nodes, node_rows),
            answers: padded(answers, answer_rows),
            room: padded(room, room_bytes),
        },
        Err(Refusal { reply, number }) => Checked {
            report: Report { reply, number, ..Report::default() },
            tokens: padded(Vec::new(), token_rows),
            nodes: padded(Vec::new(), node_rows),
            answers: padded(Vec::new(), answer_rows),
            room: padded(Vec::new(), room_bytes),
        },
    }
}

/// The token reader alone, with a table of `token_rows` rows: replies 1, 2, 3 and 6.
pub fn scan(bytes: &[u8], token_rows: usize) -> Stage<TokenRow> {
    Stage::new(scanned(Level::NEWEST, bytes, token_rows), token_rows)
}

/// The parser alone, on the tokens of `bytes`, with a table of `node_rows` rows: replies 4, 5 and 7.
pub fn parse(bytes: &[u8], tokens: &[TokenRow], node_rows: usize) -> Stage<SyntaxRow> {
    let terminals = terminals::classify(bytes, tokens);
    Stage::new(parsed(bytes, tokens, &terminals, node_rows), node_rows)
}

fn scanned(level: Level, bytes: &[u8], token_rows: usize) -> Result<Vec<TokenRow>, Refusal> {
    let tokens = tokens::read_at(level, bytes)?;
    fits(&tokens, token_rows, 6)?;
    Ok(tokens)
}

fn parsed(
    bytes: &[u8],
    tokens: &[TokenRow],
    terminals: &[terminals::Terminal],
    node_rows: usize,
) -> Result<Vec<SyntaxRow>, Refusal> {
    let nodes = parser::read(terminals).map_err(|stop| {
        // A text that stops early is refused at its length.
        let number = tokens.get(stop.token as usize).map_or(bytes.len() as u64, |token| u64::from(token.start));
        Refusal { reply: stop.reply, number }
    })?;
    fits(&nodes, node_rows, 7)?;
    Ok(nodes)
}

fn accept(level: Level, bytes: &[u8], lent: Lent) -> Result<Accepted, Refusal> {
    let [token_rows, node_rows, answer_rows, room_bytes] = lent;
    let tokens = scanned(level, bytes, token_rows)?;
    let terminals = terminals::classify(bytes, &tokens);
    let nodes = parsed(bytes, &tokens, &terminals, node_rows)?;
    let outline = Outline::new(&nodes);
    fits(&outline.constants, answer_rows, 8)?;
    let symbols = symbols::intern(bytes, &tokens, &terminals);
    let file = File {
        level,
        bytes,
        tokens: &tokens,
        terminals: &terminals,
        nodes: &nodes,
        symbols: &symbols,
        outline: &outline,
    };
    let names = names::bind(&file).map_err(|fault| fault.located(&tokens))?;
    let declared = kinds::check(&file, &names).map_err(|fault| fault.located(&tokens))?;
    let answers = evaluation::answers(&file, &names, &declared);
    if answers.room.len() > room_bytes {
        return Err(Refusal { reply: ROOM_SHORT, number: room_bytes as u64 });
    }
    let nodes = nodes
        .iter()
        .zip(&names.bindings)
        .map(|(node, &binding)| NodeRow { kind: node.kind, token: node.token, size: node.size, binding })
        .collect();
    Ok(Accepted { tokens, nodes, answers })
}

/// What the stages after the parser read.
pub struct File<'a> {
    pub level: Level,
    pub bytes: &'a [u8],
    pub tokens: &'a [TokenRow],
    pub terminals: &'a [terminals::Terminal],
    pub nodes: &'a [SyntaxRow],
    pub symbols: &'a symbols::Symbols,
    pub outline: &'a Outline,
}

impl<'a> File<'a> {
    /// By the newest rules.
    pub fn newest(
        bytes: &'a [u8],
        tokens: &'a [TokenRow],
        terminals: &'a [terminals::Terminal],
        nodes: &'a [SyntaxRow],
        symbols: &'a symbols::Symbols,
        outline: &'a Outline,
    ) -> Self {
        File { level: Level::NEWEST, bytes, tokens, terminals, nodes, symbols, outline }
    }

    /// The bytes of a token.
    fn text(&self, token: u32) -> &[u8] {
        tokens::text(self.bytes, &self.tokens[token as usize])
    }

    /// The terminal that names a node.
    fn terminal(&self, node: u32) -> terminals::Terminal {
        self.terminals[self.nodes[node as usize].token as usize]
    }

    /// The symbol of the word that names a node.
    fn symbol(&self, node: u32) -> u32 {
        self.symbols.of_token(self.nodes[node as usize].token)
    }

    fn kind(&self, node: u32) -> u8 {
        self.nodes[node as usize].kind
    }

    fn fault(&self, reply: u32, node: u32) -> Fault {
        Fault { reply, token: self.nodes[node as usize].token }
    }
}

fn fits<Row>(rows: &[Row], lent: usize, reply: u32) -> Result<(), Refusal> {
    if rows.len() > lent {
        return Err(Refusal { reply, number: rows.len() as u64 });
    }
    Ok(())
}

fn padded<Row: Clone + Default>(mut rows: Vec<Row>, lent: usize) -> Vec<Row> {
    rows.resize(lent, Row::default());
    rows
}

/// The number of rows; a file of 65,536 bytes has far fewer than 2^32.
fn count<Row>(rows: &[Row]) -> u32 {
    u32::try_from(rows.len()).unwrap_or(u32::MAX)
}
