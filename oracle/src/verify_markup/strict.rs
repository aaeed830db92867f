//! The check in the strict reading: the same text once more, unchanged, over the strict parser's events.
#![allow(clippy::all, dead_code)]
use super::*;
use crate::comment_parser::strict::CommentParser;

include!(concat!(env!("OUT_DIR"), "/verify_markup.rs"));

whole_check!();
