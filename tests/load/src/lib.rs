//! The proved call and the proved program under load, held to the reference: many files, hostile files, memory.
#![forbid(unsafe_code)]

pub mod differences;
mod held;
pub mod hostile;
pub mod memory;
pub mod mutations;
mod progress;
mod replies;
pub mod short;

pub use held::Fault;
pub use replies::Replies;

use progress::Progress;
