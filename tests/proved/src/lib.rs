//! The proved functions of the Rattle crate `test_exports`, as safe Rust.
#![deny(unsafe_code)]

mod calls;

pub use calls::{add, compare, div, modulo, multiply, negate, power, subtract};
pub use calls::{and, not, or, relate, xor};
pub use calls::{applied, between, combined, held, Operator};
pub use calls::{binary, integer, string_bytes, string_length};
pub use calls::{
    build, components, find, intern, next_of, order, parse, reachable, scan, scan_to, symbol_of, terminals, Sorted,
};
pub use calls::{compare_binaries, compare_strings, join, Binary};
pub use calls::{declared_types, evaluate_constants, resolve, type_constants};
pub use calls::{AnswerColumns, NameColumns, Nodes, Rows, Text};

/// The codes of the terminals of a text with so many tokens.
pub fn codes(bytes: &[u8], count: usize) -> Vec<u8> {
    let (mut kinds, mut starts, mut lengths) = (vec![0; count], vec![0; count], vec![0; count]);
    scan(bytes, &mut kinds, &mut starts, &mut lengths).expect("tokens");
    let mut codes = vec![0; count];
    terminals(bytes, &kinds, &starts, &lengths, &mut codes);
    codes
}
