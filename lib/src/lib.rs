//! A checker for EXPRESS schemas, proved in Rattle, as safe Rust.
//!
//! [`check`] takes the bytes of a file. An accepted [`File`] has its schemas, the [`Answer`] of each constant, and its tokens and
//! nodes; a [`Refusal`] has its number and place, and says in a sentence what is wrong. [`Checker`] does the same with tables that it
//! keeps, for those who check many files. [`call`] has the proved calls as they are, on tables and a room that the caller lends.
//!
//! ```
//! let file = woffulent::check(b"SCHEMA s; CONSTANT a : INTEGER := 7 DIV -2; END_CONSTANT; END_SCHEMA;")?;
//! assert_eq!(file.constant("s", "a"), Some(woffulent::Answer::Integer(-3)));
//! # Ok::<(), woffulent::Refusal>(())
//! ```
//!
//! What is accepted, each answer, and the number and place of each refusal come from the proved call and are proved. The sentence of
//! a refusal is not: it is plain Rust over the same bytes ([`Refusal::explain`]).
#![deny(unsafe_code)]
#![warn(missing_docs)]

mod answer;
pub mod call;
mod checker;
mod codes;
mod explain;
mod file;
mod listing;
mod refusal;
mod text;

pub use answer::{Answer, Binary, Logical};
pub use checker::{check, Checker, Rows};
pub use codes::{AnswerKind, End, NodeKind, Reply, TokenKind};
pub use explain::Explanation;
pub use file::{Constant, File, Node, Report, Schema, Token};
pub use refusal::{Position, Refusal};

/// The most bytes that a file may have.
pub const MAX_BYTES: usize = 65_536;

/// The most bytes that a string may have.
pub const MAX_STRING_BYTES: usize = 255;
