//! The crate's comment parser, whole, and a way to make and look at any parser state: its fields are the module's own.
#![allow(clippy::all)]

include!(concat!(env!("OUT_DIR"), "/comment_parser.rs"));

/// What a parser's state holds beside its buffer.
#[derive(Debug, Clone, Copy, PartialEq, Eq)]
pub struct Fields {
    pub pos: usize,
    pub math_mode: bool,
    pub html_mode: bool,
    pub item: Option<CommentItem>,
    pub end_italic: usize,
    pub end_subscript: usize,
}

/// For the parser of either reading, which has its fields in its own module.
macro_rules! any_state {
    () => {
        impl<'a> CommentParser<'a> {
            /// A parser in any state, over the buffer up to its end.
            pub fn forged(buf: &'a [u8], f: Fields) -> Self {
                Self {
                    buf,
                    pos: f.pos,
                    math_mode: f.math_mode,
                    html_mode: f.html_mode,
                    item: f.item,
                    end_italic: f.end_italic,
                    end_subscript: f.end_subscript,
                }
            }

            /// The state as it stands.
            pub fn fields(&self) -> Fields {
                Fields {
                    pos: self.pos,
                    math_mode: self.math_mode,
                    html_mode: self.html_mode,
                    item: self.item,
                    end_italic: self.end_italic,
                    end_subscript: self.end_subscript,
                }
            }
        }
    };
}

any_state!();

pub mod strict;
