//! The crate's spans and its unescaping.
#![allow(clippy::all)]
include!(concat!(env!("OUT_DIR"), "/statement.rs"));
