//! What is wrong with a refused file, in words.
//!
//! Number and place come from the proved call. After a refusal its tables hold zeros, so that what else a sentence says is found here
//! anew, from the bytes: [`tokens`] reads them, [`reader`] makes a tree of them, [`tree`] answers questions about it, and a module for
//! each stage finds the fault. Where this finds
//! no fault such as the reply says, the reply's general meaning is given; the tests see to it that this does not happen.

mod cycles;
mod expressions;
mod kinds;
mod names;
mod reader;
mod spelling;
mod syntax;
#[cfg(test)]
mod tests;
mod tokens;
mod tree;
mod words;

use crate::codes::Reply;
use crate::refusal::Refusal;
use crate::text::grouped;
use std::ops::Range;
use tokens::Token;
use tree::Tree;

/// What is wrong, in words, and where.
#[derive(Clone, Debug, PartialEq, Eq)]
pub struct Explanation {
    /// One sentence.
    pub sentence: String,
    /// The bytes at fault: a token, where there is one at the place; none where the file as a whole is refused.
    pub span: Range<usize>,
    /// Other bytes that the sentence speaks of: an earlier declaration, meanings, a declared type, the declarations on a cycle.
    pub related: Vec<Range<usize>>,
}

/// A sentence, and the other places that it speaks of.
#[derive(Debug)]
struct Finding {
    sentence: String,
    related: Vec<Range<usize>>,
}

impl Finding {
    fn new(sentence: String) -> Self {
        Finding { sentence, related: Vec::new() }
    }

    fn with(sentence: String, related: Vec<Range<usize>>) -> Self {
        Finding { sentence, related }
    }
}

pub fn explain(refusal: &Refusal) -> Explanation {
    let (src, reply) = (refusal.source(), refusal.reply());
    let general = || Finding::new(reply.meaning().to_string());
    let Some(place) = refusal.place() else {
        let finding = if refusal.is_short() { short(reply, refusal.beside() as usize) } else { general() };
        return Explanation { sentence: finding.sentence, span: 0..0, related: finding.related };
    };
    let tokens = tokens::read(src);
    let finding = match reply {
        Reply::NoToken => syntax::no_token(src, place),
        Reply::TooLarge => syntax::too_large(src, place),
        Reply::Unexpected => syntax::unexpected(src, &tokens, place),
        Reply::TooDeep => syntax::too_deep(src, place),
        _ => Tree::read(src, &tokens).and_then(|tree| in_tree(&tree, reply, place)),
    };
    let Finding { sentence, related } = finding.unwrap_or_else(general);
    Explanation { sentence, span: span(src, &tokens, place), related }
}

/// Faults of names and of kinds, which are those of a token of the tree.
fn in_tree(tree: &Tree, reply: Reply, place: usize) -> Option<Finding> {
    let token = tree.token_at(place)?;
    match reply {
        Reply::Repeated => names::repeated(tree, token),
        Reply::NotFound => names::not_found(tree, token),
        Reply::WrongSort => names::wrong_sort(tree, token),
        Reply::Ambiguous => names::ambiguous(tree, token),
        Reply::Cycle => cycles::cycle(tree, token),
        Reply::NotEvaluated => kinds::not_evaluated(tree, token),
        Reply::Misfit => kinds::misfit(tree, token),
        _ => None,
    }
}

/// The token at a place; without one its byte, if it has one.
fn span(src: &[u8], tokens: &[Token], place: usize) -> Range<usize> {
    match tokens.binary_search_by_key(&place, |token| token.start) {
        Ok(at) => tokens[at].span(),
        Err(_) => place.min(src.len())..(place + 1).min(src.len()),
    }
}

/// That a table has fewer rows than the number beside the reply says, or the room no more bytes.
fn short(reply: Reply, beside: usize) -> Finding {
    let number = grouped(beside);
    let rows = |table| format!("The file needs {number} rows in the {table} table, and fewer were lent.");
    let bytes = if beside == 1 { "byte" } else { "bytes" };
    Finding::new(match reply {
        Reply::TokensShort => rows("token"),
        Reply::NodesShort => rows("node"),
        Reply::AnswersShort => rows("answer"),
        _ => format!("The strings of the constants do not fit into the room of {number} {bytes} that was lent."),
    })
}
