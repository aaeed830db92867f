//! The stored cases about the two readings, each asked in both, and about header bytes that are not looked at.
use super::sink::{span_case, table, Sink};
use super::stepping::{state_bytes, steps};
use super::strict::each_bar;
use super::strict_credits::AUTHORS;
use crate::cases::{Case, CHECK_FLAGS, READING_OPS, STRICT};

const FOUR: &[&str] = &["`", "~", "[", "<", "``", "~~", "[[", "<<"];

/// Each of the four, lone and doubled, in a subscript and in an italic.
const PLACES: &[&str] = &["x_?b", "x_a?", " _a?b_ ", "_a?_"];

/// Samples of both readings, and what else tells them apart or must not.
const COMMENTS: &[&str] = &[
    "x_0`b.c`",
    "x_[a]",
    "a_~b",
    " _a~b_ ",
    " _a<b_ ",
    "x_<HTML>",
    "x_a``b",
    // marks in a subscript and in an italic, and an underscore behind the italic's barred end
    "x_a<HTML>b c</HTML>y_d",
    "_a [a] b_ c_",
    "_a\n~ b\n\nc_ d_",
    "_a\n\nb_ x_a_b~c_",
    "_a `b` c_",
    // neither is read in math, in a label, in a tag and in HTML
    "` x_a~b _a<b_ `",
    "~ x_[[b c",
    "[x_a~b]",
    "<HTML>x_a~ _a[b_</HTML>",
];

const CREDITS: &[&str] = &[
    "(Contributed by Ann (Revised by Bob, 12-Mar-2020.)",
    "(Contributed by A (Revised by B (Proof shortened by C, 1-Jan-2020.) (Revised by D, 1-Jan-2020.)",
    "(Contributed by A, 1-Jan-2020.) (Revised by B (New usage is discouraged.), 1-Jan-2020.)",
    "(Contributed by A, (Revised by (B), 1-Jan-2020.)",
    // the second is read as the first is
    "(Contributed by A, 1-Jan-2020.) (Revised by B (Contributed by C, 1-Jan-2020.)",
];

/// What no call of these ops takes: spans of a buffer of eight bytes.
const REFUSED: [(usize, usize); 3] = [(1, 0), (0, 9), (9, 9)];

pub fn put(op: u8, sink: &mut Sink) {
    match op {
        b'E' => comments(op, sink),
        b'S' => stepped(sink),
        b'V' => unescaping(sink),
        b'P' | b'Q' => credits(op, sink),
        b'C' | b'H' => over_tables(op, sink),
        _ => {}
    }
    unread(op, sink);
}

fn in_both(sink: &mut Sink, case: Case) {
    for reading in [0, STRICT] {
        sink.put(&Case { reading, ..case.clone() });
    }
}

fn comments(op: u8, sink: &mut Sink) {
    let mut whole = |text: &[u8]| in_both(sink, Case { room: 64, ..span_case(op, text, 0, text.len()) });
    COMMENTS.iter().for_each(|text| whole(text.as_bytes()));
    each_bar(PLACES, FOUR, &mut whole);
    for room in [0, 4, 5, 14, 15, 16] {
        sink.put(&Case { reading: STRICT, room, ..span_case(op, b"x_a~~b c", 0, 5) });
    }
    for (a, b) in REFUSED {
        sink.put(&Case { reading: STRICT, room: 64, ..span_case(op, b"x_a~~b c", a, b) });
    }
}

fn stepped(sink: &mut Sink) {
    let state =
        |end: usize, pos: u32, italic: u32, subscript: u32| [end as u32, pos, 0, 0, 0, 0, 0, 0, italic, subscript];
    // a later subscript or italic is read as the first is
    for text in COMMENTS[..8].iter().chain(&["x_a`b` y_c~d", " _a_ _b~c_ ", "x_0 _a<b_"]) {
        for c in [1, 100] {
            in_both(sink, steps(state(text.len(), 0, u32::MAX, 0), text.as_bytes(), c));
        }
    }
    // ends that are noted already stand, bar or not
    for (pos, italic, subscript) in [(0, u32::MAX, 4), (2, 5, 0), (1, 5, 1), (2, u32::MAX, 4)] {
        in_both(sink, steps(state(6, pos, italic, subscript), b"x_a~b_", 100));
    }
    // refused, and no step asked
    for (end, pos) in [(2, 3), (4, 0)] {
        for c in [0, 2] {
            sink.put(&Case { reading: STRICT, ..steps(state(end, pos, u32::MAX, 0), b"x_`", c) });
        }
    }
}

/// The answer is the same in both readings.
fn unescaping(sink: &mut Sink) {
    for (end, pos, b, room) in [(8, 0, 8, 9), (8, 8, 8, 3), (7, 0, 8, 9), (4, 5, 4, 9)] {
        for flag in [0, 2, 3] {
            let payload = [&state_bytes([end, pos, 0, 0, 0, 0, 0, 0, u32::MAX, 0])[..], b"``[[~~__"].concat();
            sink.put(&Case { op: b'V', flag, reading: STRICT, b, room, payload, ..Case::default() });
        }
    }
}

fn credits(op: u8, sink: &mut Sink) {
    let mut whole = |text: &[u8]| in_both(sink, Case { room: 28, c: 3, ..span_case(op, text, 0, text.len()) });
    CREDITS.iter().for_each(|text| whole(text.as_bytes()));
    // one of three for the steps, which search as the list does
    for author in AUTHORS.iter().step_by(if op == b'P' { 1 } else { 3 }) {
        whole(&[b"(Revised by ", *author, b", 1-Jan-2020.)"].concat());
    }
    for number in [1, 6, 7] {
        let text = CREDITS[1].as_bytes();
        sink.put(&Case { reading: STRICT, room: number, c: number, ..span_case(op, text, 0, text.len()) });
    }
    for (a, b) in REFUSED {
        sink.put(&Case { reading: STRICT, room: 7, c: 1, ..span_case(op, b"(Revised", a, b) });
    }
}

/// The check by both flags, and the links.
fn over_tables(op: u8, sink: &mut Sink) {
    for number in 1..=3 {
        sink.lend(number, &["a", "b", "b_"]);
    }
    let flags = if op == b'C' { &CHECK_FLAGS[..] } else { &[0] };
    for &flag in flags {
        for text in COMMENTS {
            in_both(sink, Case { flag, room: 64, ..span_case(op, text.as_bytes(), 0, text.len()) });
        }
        for (a, b) in REFUSED {
            sink.put(&Case { flag, reading: STRICT, room: 64, ..span_case(op, b"x_~a _b_", a, b) });
        }
    }
    let ask = |room| Case { reading: STRICT, room, ..span_case(op, b"x_~c ~ b", 0, 8) };
    (0..=4).for_each(|room| sink.put(&ask(room)));
    sink.put(&table(2, &[1, 1], b"a"));
    sink.put(&ask(64));
    sink.lend(2, &["a"]);
}

/// Byte 2 where the op has no reading, and byte 3 of every op.
fn unread(op: u8, sink: &mut Sink) {
    let (payload, flag) = match op {
        b'S' | b'V' => ([&state_bytes([3, 0, 0, 0, 0, 0, 0, 0, u32::MAX, 0])[..], b"x_`"].concat(), 0),
        b'D' => (b"5-Aug-1993".to_vec(), 0),
        // no symbols
        b'T' => (vec![], 1),
        b'N' => (b"x".to_vec(), 1),
        _ => (b"x_`".to_vec(), 0),
    };
    for (reading, spare) in [(1, 0), (2, 0), (0, 1), (255, 255)] {
        if reading <= STRICT || !READING_OPS.contains(&op) {
            sink.put(&Case { op, flag, reading, spare, a: 0, b: 3, c: 1, room: 64, payload: payload.clone() });
        }
    }
}
