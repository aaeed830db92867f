//! Events as four words, without a line, and parser states as the ten words of ops S and V.
use crate::comment_parser::{CommentItem, Fields};
use crate::readings::{Parser, Reading};
use crate::Span;

/// Bytes of a state at the head of a payload.
pub const STATE_BYTES: u32 = 40;
/// The noted italic end where there is none.
const NO_ITALIC: u32 = u32::MAX;

/// The four words of an event: kind, place, start, end. So it is given by op S and waits in a state; op E puts the line behind.
pub fn event_words(item: CommentItem) -> [u32; 4] {
    let span = |kind, sp: Span| [kind, sp.start, sp.start, sp.end];
    let place = |kind, at: usize| [kind, at as u32, at as u32, at as u32];
    let both = |kind, at: usize, sp: Span| [kind, at as u32, sp.start, sp.end];
    match item {
        CommentItem::Text(sp) => span(1, sp),
        CommentItem::LineBreak(at) => place(2, at),
        CommentItem::StartMathMode(at) => place(3, at),
        CommentItem::EndMathMode(at) => place(4, at),
        CommentItem::MathToken(sp) => span(5, sp),
        CommentItem::Label(at, sp) => both(6, at, sp),
        CommentItem::Url(at, sp) => both(7, at, sp),
        CommentItem::StartHtml(at) => place(8, at),
        CommentItem::EndHtml(at) => place(9, at),
        CommentItem::StartSubscript(at) => place(10, at),
        CommentItem::EndSubscript(at) => place(11, at),
        CommentItem::StartItalic(at) => place(12, at),
        CommentItem::EndItalic(at) => place(13, at),
        CommentItem::BibTag(sp) => span(14, sp),
    }
}

/// The event of a record; none if no event has that record.
fn event_of(words: [u32; 4]) -> Option<CommentItem> {
    let [kind, place, start, end] = words;
    let sp = Span::new2(start, end);
    let at = place as usize;
    let item = match kind {
        1 => CommentItem::Text(sp),
        2 => CommentItem::LineBreak(at),
        3 => CommentItem::StartMathMode(at),
        4 => CommentItem::EndMathMode(at),
        5 => CommentItem::MathToken(sp),
        6 => CommentItem::Label(at, sp),
        7 => CommentItem::Url(at, sp),
        8 => CommentItem::StartHtml(at),
        9 => CommentItem::EndHtml(at),
        10 => CommentItem::StartSubscript(at),
        11 => CommentItem::EndSubscript(at),
        12 => CommentItem::StartItalic(at),
        13 => CommentItem::EndItalic(at),
        14 => CommentItem::BibTag(sp),
        _ => return None,
    };
    (event_words(item) == words).then_some(item)
}

/// A parser state as a case gives it: nothing says that it fits a buffer.
#[derive(Debug, Clone, Copy)]
pub struct State {
    pub end: u32,
    fields: Fields,
}

impl State {
    /// Reads the ten words at the payload's head; none if a word is out of its range.
    pub fn read(payload: &[u8]) -> Option<Self> {
        let word = |i: usize| u32::from_le_bytes(payload[4 * i..4 * i + 4].try_into().unwrap());
        let bit = |i: usize| if word(i) <= 1 { Some(word(i) == 1) } else { None };
        let waiting = [word(4), word(5), word(6), word(7)];
        let item = if waiting == [0; 4] { None } else { Some(event_of(waiting)?) };
        let fields = Fields {
            pos: word(1) as usize,
            math_mode: bit(2)?,
            html_mode: bit(3)?,
            item,
            end_italic: if word(8) == NO_ITALIC { usize::MAX } else { word(8) as usize },
            end_subscript: word(9) as usize,
        };
        Some(Self { end: word(0), fields })
    }

    /// Answer 3 is given exactly when this fails.
    pub fn fits(&self, buf: &[u8]) -> bool {
        self.fields.pos <= self.end as usize && self.end as usize <= buf.len()
    }

    /// A reading's parser in this state, which has to fit.
    pub fn parser<'a>(&self, reading: Reading, buf: &'a [u8]) -> Parser<'a> {
        Parser::forged(reading, &buf[..self.end as usize], self.fields)
    }

    /// The state that a parser is in; its end stays.
    pub fn after(&self, parser: &Parser<'_>) -> Self {
        Self { end: self.end, fields: parser.fields() }
    }

    pub fn words(&self) -> [u32; 10] {
        let f = &self.fields;
        let waiting = f.item.map_or([0; 4], event_words);
        let italic = if f.end_italic == usize::MAX { NO_ITALIC } else { f.end_italic as u32 };
        [
            self.end,
            f.pos as u32,
            u32::from(f.math_mode),
            u32::from(f.html_mode),
            waiting[0],
            waiting[1],
            waiting[2],
            waiting[3],
            italic,
            f.end_subscript as u32,
        ]
    }
}
