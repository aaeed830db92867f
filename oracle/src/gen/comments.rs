//! Random comments with structure: what people write, and what they get wrong.
use super::random::Rng;
use super::texts::TELLING;

const WORDS: &[&str] = &["the", "x", "A", "set", "of", "Theorem", "1", "é", "don't", "2nd", "e.g.", "a-b", "P"];
const BLANKS: &[&str] = &[" ", " ", " ", " ", "  ", "\n", "\n     ", "\n\n", "\n \n", "\t", "\r\n", "\r", "\x0c", ""];
const CLOSERS: &[&str] = &[".", ",", ";", ")", "?", "!", ":", "]", "'", "\"", "_", "-", ""];
const OPENERS: &[&str] = &["(", "[", "\"", "'", " \"", "( ", "[ ", " \" ", ""];
const TOKENS: &[&str] = &["ph", "->", "A.", "x", "e.", "(", ")", "``", "a``b", "_om", "|-", "[", "~", "A", "x_0"];
pub const LABELS: &[&str] =
    &["ax-1", "mp2", "a1i", "idi", "ax-mp", "a.b", "a[b", "a[[b", "x[A]", "df-an", "mmtheorems.html", "m", "1__2"];
pub const URLS: &[&str] = &[
    "http://us.metamath.org/a_b",
    "https://x.org/~~norm",
    "http:/x",
    "mm",
    "mmset.html#axioms",
    "https://",
    "HTTP://x",
];
const TAGS: &[&str] = &["[A]", "[TakeutiZaring]", "[a``b]", "[a`b]", "[a~b]", "[]", "[a b]", "[a", "[[A]", "[a\tb]"];
const HTML: &[&str] = &["<HTML>", "</HTML>", "<html>", "</Html>", "<HTML", "<B>", "<", "< HTML>", "</HTML"];
const ESCAPES: &[&str] = &["``", "~~", "[[", "__", "`", "~", "[", "_", "```", "~~~", "___"];
pub const CREDITS: &[&str] = &[
    "(Contributed by NM, 5-Aug-1993.)",
    "(Revised by Mario Carneiro, 12-Jun-2014.)",
    "(Proof shortened by O'Cat,\n     3-Dec-2012.)",
    "(Proof modification is discouraged.)",
    "(New usage is discouraged.)",
    "(Contributed by Ann (Revised by Bob, 2-Feb-2020.)",
    "(Contributed by Ann, 31-Feb-2020)",
];

/// A comment of a few pieces.
pub fn comment(rng: &mut Rng) -> Vec<u8> {
    let mut text = vec![];
    for _ in 0..1 + rng.below(12) {
        piece(rng, &mut text);
        if rng.percent(75) {
            text.extend_from_slice(rng.pick(BLANKS).as_bytes());
        }
    }
    text
}

/// A longer comment, of about `length` bytes.
pub fn long_comment(rng: &mut Rng, length: usize) -> Vec<u8> {
    let mut text = vec![];
    while text.len() < length {
        text.extend(comment(rng));
    }
    text.truncate(length);
    text
}

fn piece(rng: &mut Rng, text: &mut Vec<u8>) {
    let add = |text: &mut Vec<u8>, s: &str| text.extend_from_slice(s.as_bytes());
    match rng.below(14) {
        0..=2 => add(text, rng.pick(WORDS)),
        3 | 4 => math(rng, text),
        5 => label(rng, text, LABELS),
        6 => label(rng, text, URLS),
        7 => add(text, rng.pick(TAGS)),
        8 => italic(rng, text),
        9 => subscript(rng, text),
        10 => add(text, rng.pick(HTML)),
        11 => add(text, rng.pick(ESCAPES)),
        12 => {
            add(text, rng.pick(OPENERS));
            add(text, rng.pick(WORDS));
            add(text, rng.pick(CLOSERS));
        }
        _ if rng.percent(30) => add(text, rng.pick(CREDITS)),
        _ => text.push(TELLING[rng.below(TELLING.len())]),
    }
}

/// `` ` a b ` ``, with what may stand around it; now and then not closed.
fn math(rng: &mut Rng, text: &mut Vec<u8>) {
    text.extend_from_slice(rng.pick(OPENERS).as_bytes());
    text.push(b'`');
    for _ in 0..rng.below(5) {
        text.extend_from_slice(rng.pick(BLANKS).as_bytes());
        text.extend_from_slice(rng.pick(TOKENS).as_bytes());
    }
    text.extend_from_slice(rng.pick(BLANKS).as_bytes());
    if rng.percent(92) {
        text.push(b'`');
    }
    if rng.percent(40) {
        text.extend_from_slice(rng.pick(BLANKS).as_bytes());
    }
    text.extend_from_slice(rng.pick(CLOSERS).as_bytes());
}

fn label(rng: &mut Rng, text: &mut Vec<u8>, names: &[&str]) {
    text.extend_from_slice(rng.pick(OPENERS).as_bytes());
    text.push(b'~');
    text.extend_from_slice(rng.pick(BLANKS).as_bytes());
    text.extend_from_slice(rng.pick(names).as_bytes());
    if rng.percent(60) {
        text.extend_from_slice(rng.pick(BLANKS).as_bytes());
    }
    text.extend_from_slice(rng.pick(CLOSERS).as_bytes());
}

fn italic(rng: &mut Rng, text: &mut Vec<u8>) {
    text.extend_from_slice(rng.pick(&["", " ", "(", "'", "x"]).as_bytes());
    text.push(b'_');
    for _ in 0..1 + rng.below(3) {
        text.extend_from_slice(rng.pick(WORDS).as_bytes());
        text.extend_from_slice(rng.pick(&["", " ", "__", "\n", "x_1", "`"]).as_bytes());
    }
    text.push(b'_');
    text.extend_from_slice(rng.pick(&["", " ", ".", "x", "_"]).as_bytes());
}

fn subscript(rng: &mut Rng, text: &mut Vec<u8>) {
    text.extend_from_slice(rng.pick(WORDS).as_bytes());
    text.push(b'_');
    text.extend_from_slice(rng.pick(&["0", "ab", "{i}", "`x`", "~", "[A]", "i_j", "0_a_", ""]).as_bytes());
    text.extend_from_slice(rng.pick(CLOSERS).as_bytes());
}
