//! The crate's reserved names and its comment check, over lent tables in place of a database and without the HTML parser.
#![allow(clippy::all)]
use crate::comment_parser::{is_label_escape, is_text_escape, CommentItem, CommentParser};
use crate::diag::Diagnostic;
use crate::lent::{Bibliography, Database, HtmlParser};
use crate::Span;
use regex::bytes::Regex;
use std::sync::OnceLock;

include!(concat!(env!("OUT_DIR"), "/verify_markup.rs"));

/// Is the whole name reserved?
pub fn is_reserved_name(name: &[u8]) -> bool {
    windows_reserved_names().is_match(name)
}

/// For the check of either reading, which is its own module's.
macro_rules! whole_check {
    () => {
        /// The diagnostics of a span, in order.
        pub fn check_comment(db: &Database, bib: Option<&Bibliography>, buf: &[u8], span: Span) -> Vec<Diagnostic> {
            let mut found = vec![];
            verify_markup_comment(db, bib, buf, span, |d| found.push(d));
            found
        }
    };
}

whole_check!();

pub mod strict;
