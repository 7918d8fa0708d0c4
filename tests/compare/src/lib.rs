//! The case corpus and seeded random files, run on a checker.
pub mod cases;
pub mod difference;
pub mod hostile;
pub mod lanes;
pub mod program;
pub mod random;
mod shrink;
pub mod timing;
pub mod units;

pub use shrink::shrink;
