//! The comment parser and comment check of metamath-rs 0.3.9 behind the replay format (REPLAY.md).
//! The first five modules include what build.rs cut out of the crate, two of them once more for the strict reading; the rest is ours.
pub mod comment_parser;
pub mod diag;
pub mod parser;
pub mod statement;
pub mod verify_markup;

pub mod answers;
pub mod cases;
#[cfg(feature = "cases")]
pub mod gen;
#[cfg(feature = "cases")]
pub mod held;
pub mod lent;
pub mod lines;
pub mod ops;
pub mod readings;
pub mod rooms;
pub mod states;
pub mod tables;

/// Where the cut text looks for it.
pub use statement::Span;
