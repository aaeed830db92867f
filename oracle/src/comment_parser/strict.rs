//! The strict reading's parser and its search for parentheticals: the crate's text with the changes that build.rs makes,
//! and no other. Items, dates, flags and unescaping are those of the module above.
#![allow(clippy::all)]
use super::*;

/// The four bytes that end a subscript, and that bar its beginning and an italic, doubled or not.
const BARRED: &[u8] = b"`~[<";

include!(concat!(env!("OUT_DIR"), "/strict_parser.rs"));

any_state!();
