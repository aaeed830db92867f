//! The stored cases of the ops that read comments and states: E, S, V, P, Q, F.
use super::sink::{span_case, Sink};
use super::stepping::state_bytes;
use super::stored::bytes;
use super::texts::{each_span, SAMPLES};
use crate::cases::Case;

/// Comments that, with document 01's samples, meet every reading rule.
const COMMENTS: &[&str] = &[
    "a `` b",
    "` a``b  c `",
    "` a",
    "`  `",
    "`",
    "a<HTML>b_c</HTML>d_e",
    "<HTML> <HTML> ~ a </HTML>",
    "</HTML>",
    "<html>",
    "<HTML",
    "a~~b",
    "~a",
    "~ \t\n a b",
    "~ a\tb c",
    "~ a[[b``c[d`e",
    "~ a[B]c",
    "~ a[b c",
    "~ a<HTML>b",
    "~ a</HTML>b",
    "~ http://x.y .",
    "~ https://x ,",
    "~ http:/x",
    "~ mm",
    "~ m",
    "a[[b",
    "[a``b]",
    "[a`b]",
    "[a",
    "[a\tb]",
    "x [A] y",
    "a\nb\nc",
    "a\n \t\r\x0c\nb",
    "a\n\x0b\nb",
    "a__b",
    "_a_",
    "_ab c_ d",
    "_a_b",
    "_a _",
    "_._",
    "_a__b_",
    "_a",
    "(_a_)",
    "[_a_]",
    "'_a_'",
    "\"_a_\"",
    "x_a_b_",
    "x_a.b",
    "x_",
    "x_ ",
    "x_.",
    "x_a",
    "_a_.",
    "x_ab_c_ d",
    "( ~ a )",
    "[ `a`",
    "\" `a`",
    "x\" `a`",
    " \" ~ a",
    "( `",
    " `a` .",
    "`a` x",
    "`a`  .",
    "~ a .",
    "~ a x",
    "~ a -",
    "`a` _",
    "a ( `b`",
    "  `a`",
    "x_a`b`c d",
    "x_`a b`",
    "_a `b` c_",
    "_a ~ b_ c_",
    "_a\n\nb_",
    "x_<HTML>y z</HTML>",
];

/// The samples, and the comments beside them.
pub fn comments() -> impl Iterator<Item = &'static &'static str> {
    SAMPLES.iter().chain(COMMENTS)
}

pub fn events(sink: &mut Sink) {
    for text in comments() {
        sink.put(&Case { room: 128, ..span_case(b'E', text.as_bytes(), 0, text.len()) });
    }
    for text in ["a_b_", " _b_", "a`b` ", "~ a[b]", "\n\na"] {
        each_span(text.len(), &mut |a, b| sink.put(&Case { room: 64, ..span_case(b'E', text.as_bytes(), a, b) }));
    }
    // around one record, two and all five
    for room in [0, 1, 4, 5, 6, 9, 10, 11, 24, 25, 26] {
        sink.put(&Case { room, ..span_case(b'E', b"( `a` )", 0, 7) });
    }
    for (a, b) in [(1, 0), (0, 4), (4, 4), (u32::MAX as usize, u32::MAX as usize)] {
        sink.put(&Case { room: 8, ..span_case(b'E', b"a_b", a, b) });
    }
}

pub fn steps(sink: &mut Sink) {
    let mut put = |words: [u32; 10], c: u32, buf: &[u8]| {
        sink.put(&Case { op: b'S', c, payload: [&state_bytes(words)[..], buf].concat(), ..Case::default() });
    };
    let none = u32::MAX;
    for c in 0..=6 {
        put([7, 0, 0, 0, 0, 0, 0, 0, none, 0], c, b"( `a` )");
    }
    for text in ["x_0`b.c`", "a__b<HTML>", "_a_", "\n\n\n"] {
        put([text.len() as u32, 0, 0, 0, 0, 0, 0, 0, none, 0], 100, text.as_bytes());
    }
    // position past the end, end past the buffer; no step asks
    for (end, pos) in [(2, 3), (4, 0), (4, 5), (3, 3), (0, 0), (2, 1), (none, none)] {
        put([end, pos, 0, 0, 0, 0, 0, 0, none, 0], 2, b"a_b");
        put([end, pos, 0, 0, 0, 0, 0, 0, none, 0], 0, b"a_b");
    }
    // each kind waiting, both modes, noted ends
    for kind in 1..=14 {
        let numbers = match kind {
            1 | 5 | 14 => [kind, 9, 9, 7],
            6 | 7 => [kind, 9, 8, 7],
            _ => [kind, 9, 9, 9],
        };
        put([2, 0, 0, 0, numbers[0], numbers[1], numbers[2], numbers[3], none, 0], 2, b"ab");
    }
    for mode in 0..4 {
        for (italic, subscript) in [(none, 0), (1, 0), (none, 1), (1, 1), (2, 3), (3, 2)] {
            put([4, 0, mode & 1, mode >> 1, 0, 0, 0, 0, italic, subscript], 100, b"a_ _");
        }
    }
    // an underscore at the buffer's start, the noted subscript end elsewhere: italic, or plain where that fails
    for text in ["_a_", "_a"] {
        put([text.len() as u32, 0, 0, 0, 0, 0, 0, 0, none, 9], 100, text.as_bytes());
    }
}

pub fn parser_unescaping(sink: &mut Sink) {
    for (end, pos, a, b, room) in [
        (8, 0, 0, 8, 9),
        (8, 8, 0, 8, 4),
        (8, 0, 0, 8, 3),
        (8, 0, 0, 8, 0),
        (7, 0, 0, 8, 9),
        (9, 0, 0, 8, 9),
        (9, 0, 0, 9, 9),
        (4, 5, 0, 4, 9),
        (4, 5, 0, 5, 9),
        (4, 4, 5, 4, 9),
        (4, 0, 1, 4, 9),
        (0, 0, 0, 0, 0),
        (4, 4, 4, 4, 0),
    ] {
        for (html, flag) in [(0, 0), (1, 0), (0, 2), (1, 3)] {
            let payload = [&state_bytes([end, pos, 0, html, 0, 0, 0, 0, u32::MAX, 0])[..], b"``[[~~__"].concat();
            sink.put(&Case { op: b'V', flag, a, b, room, payload, ..Case::default() });
        }
    }
    // document 01's sample: Text(0,4) unescaped before it is read, and after, when the mode has turned
    for state in [[10, 0, 0, 0, 0, 0, 0, 0, u32::MAX, 0], [10, 10, 0, 1, 8, 4, 4, 4, u32::MAX, 0]] {
        let payload = [&state_bytes(state)[..], b"a__b<HTML>"].concat();
        sink.put(&Case { op: b'V', b: 4, room: 16, payload, ..Case::default() });
    }
}

const CREDITS: &[&str] = &[
    "",
    "(Contributed by A, 1-Jan-2020.)",
    "(Revised by A B,\r\n12-Feb-0000.)",
    "(Proof  shortened\nby A, 1-Jan-2020.)",
    "(Proof modification is discouraged.)",
    "(New usage is discouraged.)",
    "(Contributed by Ann (Revised by Bob, 2-Feb-2020.)",
    "(Contributed by  , 1-Jan-2020.)",
    "(Contributed by , 1-Jan-2020.)",
    "(Contributed by\tA, 1-Jan-2020.)",
    "(Contributed  by A,1-Jan-2020.)",
    "(Contributed by A) B, 1-Jan-2020.)",
    "(Contributed by A, B, 1-Jan-2020.)",
    "(Contributed by A, 1-jan-2020.)",
    "(Contributed by A, 123-Jan-2020.)",
    "(Contributed by A, 1-Jan-2020)",
    "(contributed by A, 1-Jan-2020.)",
    "((New usage is discouraged.)(New usage is discouraged.)",
    "(Contributed by A, (Revised by B, 1-Jan-2020.)",
    "(Contributed by é, 1-Jan-2020.) (Proof shortened by B, 3-Mar-2021.)",
    "(Proof (New\tusage is discouraged.)",
    "(Newusage is discouraged.)",
    "(New usage is discouraged)",
    "(Contributed by \n A \n, 1-Jan-2020.)",
];

pub fn credits(sink: &mut Sink, op: u8) {
    let put = |sink: &mut Sink, text: &[u8], a: usize, b: usize| {
        sink.put(&Case { room: 28, c: 3, ..span_case(op, text, a, b) });
    };
    for text in CREDITS {
        put(sink, text.as_bytes(), 0, text.len());
    }
    for author in [
        &b"\xff"[..],
        b"\xc3",
        b"\xe2\x82\xac",
        b"\xed\xa0\x80",
        b"\xf0\x9f\x98\x80",
        b"\xf4\x90\x80\x80",
        b"\xc0\x80",
        b"\xe0\x80\x80",
    ] {
        let text = [b"(Revised by ", author, b", 1-Jan-2020.)"].concat();
        put(sink, &text, 0, text.len());
    }
    let two = "x(New usage is discouraged.)(Revised by A, 1-Jan-2020.)";
    for (a, b) in [(1, 55), (2, 55), (1, 54), (28, 55), (0, 56), (3, 2), (56, 56)] {
        put(sink, two.as_bytes(), a, b);
    }
    for number in [0, 1, 6, 7, 8, 13, 14, 15, 30] {
        sink.put(&Case { room: number, c: number, ..span_case(op, two.as_bytes(), 0, two.len()) });
    }
}

pub fn flags(sink: &mut Sink) {
    for text in CREDITS {
        bytes(sink, b'F', text.as_bytes());
    }
    bytes(sink, b'F', b"x(New \n usage is discouraged.)\xff(Proof\rmodification is discouraged.)");
}
