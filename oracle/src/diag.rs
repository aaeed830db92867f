//! The ten diagnostics of the comment check, with what the crate's own enum has them carry.
#![allow(clippy::all)]
use crate::statement::Token;
use crate::Span;

include!(concat!(env!("OUT_DIR"), "/diag.rs"));
