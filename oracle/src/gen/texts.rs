//! Texts: every sequence of pieces, every span, and random changes.
use super::random::Rng;

/// Bytes that some rule asks about, and a few neighbours of them.
pub const TELLING: &[u8] = b"`~[]_<>/HTMLhtml \t\n\r\x0b\x0c().,;?!:'\"-az09AZ{}@$\0\x7f\x80\xc3\xa9\xff";

/// Calls `f` with each text of at most `most` pieces.
pub fn each_sequence(pieces: &[&[u8]], most: usize, f: &mut dyn FnMut(&[u8])) {
    fn extend(pieces: &[&[u8]], left: usize, text: &mut Vec<u8>, f: &mut dyn FnMut(&[u8])) {
        f(text);
        if left > 0 {
            for piece in pieces {
                text.extend_from_slice(piece);
                extend(pieces, left - 1, text, f);
                text.truncate(text.len() - piece.len());
            }
        }
    }
    extend(pieces, most, &mut vec![], f);
}

/// Calls `f` with each span of a buffer of this length.
pub fn each_span(length: usize, f: &mut dyn FnMut(usize, usize)) {
    for a in 0..=length {
        for b in a..=length {
            f(a, b);
        }
    }
}

/// The alphabets of the reading rules, with how many pieces are tried whole and how many in every span.
pub struct Alphabet {
    pub pieces: &'static [&'static [u8]],
    pub whole: usize,
    pub spans: usize,
}

pub const ALPHABETS: &[Alphabet] = &[
    // every mark, an opener, a closer, blanks
    Alphabet { pieces: &[b"`", b" ", b"a", b"_", b"~", b"[", b"]", b".", b"(", b"\n"], whole: 5, spans: 4 },
    // math with subscripts over it
    Alphabet { pieces: &[b"`", b"a", b" ", b"_", b"."], whole: 7, spans: 5 },
    // underscores
    Alphabet { pieces: &[b"_", b"a", b" ", b".", b"("], whole: 7, spans: 5 },
    // labels
    Alphabet { pieces: &[b"~", b" ", b"\t", b"[", b"]", b"`", b"a", b"mm"], whole: 5, spans: 3 },
    // line feeds
    Alphabet { pieces: &[b"\n", b" ", b"a", b"\r", b"_", b"`"], whole: 6, spans: 4 },
    // blanks dropped before a mark
    Alphabet { pieces: &[b"\"", b" ", b"`", b"~", b"(", b"[", b"a"], whole: 5, spans: 4 },
    // HTML marks
    Alphabet { pieces: &[b"<HTML>", b"</HTML>", b"~", b" ", b"`", b"a", b"_", b"\n", b"[", b"]"], whole: 4, spans: 2 },
    // urls and broken marks
    Alphabet {
        pieces: &[b"~ ", b"http://", b"https://", b"http:/", b"m", b"a", b"<HTML", b">", b"``", b"[a]", b"\n\n"],
        whole: 4,
        spans: 2,
    },
];

/// Calls `f` with buffer and span for every text over the alphabets, `more` pieces longer than stated (or shorter).
pub fn each_text(more: isize, f: &mut dyn FnMut(&[u8], usize, usize)) {
    for alphabet in ALPHABETS {
        let whole = alphabet.whole.saturating_add_signed(more);
        let spans = alphabet.spans.saturating_add_signed(more);
        each_sequence(alphabet.pieces, whole, &mut |text| f(text, 0, text.len()));
        each_sequence(alphabet.pieces, spans, &mut |text| {
            each_span(text.len(), &mut |a, b| {
                if (a, b) != (0, text.len()) {
                    f(text, a, b);
                }
            });
        });
    }
}

/// One to three changes: a byte left out, put in, replaced or doubled, or two neighbours changed about.
pub fn mutated(rng: &mut Rng, text: &[u8]) -> Vec<u8> {
    let mut text = text.to_vec();
    for _ in 0..1 + rng.below(3) {
        let at = rng.below(text.len() + 1);
        let byte = if rng.percent(90) { TELLING[rng.below(TELLING.len())] } else { rng.byte() };
        match rng.below(5) {
            0 => text.insert(at, byte),
            _ if at >= text.len() => text.push(byte),
            1 => text[at] = byte,
            2 => text.insert(at, text[at]),
            3 if at + 1 < text.len() => text.swap(at, at + 1),
            _ => {
                text.remove(at);
            }
        }
    }
    text
}

/// A span by chance: mostly the whole or a part, now and then one that is refused.
pub fn any_span(rng: &mut Rng, length: usize) -> (usize, usize) {
    let a = rng.below(length + 1);
    let b = rng.below(length + 1);
    match rng.below(20) {
        0 => (a.max(b) + 1, a.min(b)),
        1 => (a, length + 1 + rng.below(3)),
        2..=10 => (0, length),
        _ => (a.min(b), a.max(b)),
    }
}

/// Document 01's sample comments.
pub const SAMPLES: &[&str] = &[
    "",
    "[]",
    "[a ]",
    "~",
    "~ mmx",
    "\n\n\n",
    "( `a` )",
    "x_0`b.c`",
    "a_b_",
    " _b_",
    "a__",
    "a_",
    "a__b<HTML>",
    "x_0 ~ ax-1.",
];
