//! The two readings behind one name: the crate's parser, search and check, and the same with the strict changes.
use crate::comment_parser::{strict, CommentItem, CommentParser, Fields, Parenthetical, ParentheticalIter};
use crate::diag::Diagnostic;
use crate::lent::{Bibliography, Database};
use crate::{verify_markup, Span};

#[derive(Debug, Clone, Copy, Default, PartialEq, Eq)]
pub enum Reading {
    #[default]
    Rust,
    Strict,
}

/// The parser of either reading.
pub enum Parser<'a> {
    Rust(CommentParser<'a>),
    Strict(strict::CommentParser<'a>),
}

/// The same of whichever parser it is.
macro_rules! of_parser {
    ($parser:expr, $p:ident => $what:expr) => {
        match $parser {
            Parser::Rust($p) => $what,
            Parser::Strict($p) => $what,
        }
    };
}

impl<'a> Parser<'a> {
    pub fn new(reading: Reading, buf: &'a [u8], span: Span) -> Self {
        match reading {
            Reading::Rust => Self::Rust(CommentParser::new(buf, span)),
            Reading::Strict => Self::Strict(strict::CommentParser::new(buf, span)),
        }
    }

    /// A parser in any state, over the buffer up to its end.
    pub fn forged(reading: Reading, buf: &'a [u8], fields: Fields) -> Self {
        match reading {
            Reading::Rust => Self::Rust(CommentParser::forged(buf, fields)),
            Reading::Strict => Self::Strict(strict::CommentParser::forged(buf, fields)),
        }
    }

    /// The state as it stands.
    pub fn fields(&self) -> Fields {
        of_parser!(self, p => p.fields())
    }

    pub fn unescape_text(&self, span: Span, out: &mut Vec<u8>) {
        of_parser!(self, p => p.unescape_text(span, out))
    }

    pub fn unescape_label(&self, span: Span, out: &mut Vec<u8>) {
        of_parser!(self, p => p.unescape_label(span, out))
    }

    pub fn unescape_math(&self, span: Span, out: &mut Vec<u8>) {
        of_parser!(self, p => p.unescape_math(span, out))
    }
}

impl Iterator for Parser<'_> {
    type Item = CommentItem;

    fn next(&mut self) -> Option<CommentItem> {
        of_parser!(self, p => p.next())
    }
}

/// The parentheticals of a span in either reading.
pub enum Parentheticals<'a> {
    Rust(ParentheticalIter<'a>),
    Strict(strict::ParentheticalIter<'a>),
}

impl<'a> Parentheticals<'a> {
    pub fn new(reading: Reading, buf: &'a [u8], span: Span) -> Self {
        match reading {
            Reading::Rust => Self::Rust(ParentheticalIter::new(buf, span)),
            Reading::Strict => Self::Strict(strict::ParentheticalIter::new(buf, span)),
        }
    }
}

impl Iterator for Parentheticals<'_> {
    type Item = (Span, Parenthetical);

    fn next(&mut self) -> Option<Self::Item> {
        match self {
            Self::Rust(search) => search.next(),
            Self::Strict(search) => search.next(),
        }
    }
}

/// The diagnostics of a span, in order.
pub fn check_comment(
    reading: Reading,
    db: &Database,
    bib: Option<&Bibliography>,
    buf: &[u8],
    span: Span,
) -> Vec<Diagnostic> {
    match reading {
        Reading::Rust => verify_markup::check_comment(db, bib, buf, span),
        Reading::Strict => verify_markup::strict::check_comment(db, bib, buf, span),
    }
}
