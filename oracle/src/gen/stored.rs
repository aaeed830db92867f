//! The stored cases: a few thousand, chosen so that each rule and each refusal of an op is there.
//! A new op gets a function, here or in a file beside this one, and a line in `put`; stored_sweeps.rs adds what goes by the hundred.
use super::sink::{span_case, Sink};
use super::stored_comments::{credits, events, flags, parser_unescaping, steps};
use super::stored_lines as lines;
use super::stored_links::links;
use super::stored_strict as strict;
use super::stored_sweeps as sweeps;
use super::stored_tables::{checks, lookups};
use crate::cases::Case;

/// The stored cases of an op.
pub fn put(op: u8, sink: &mut Sink) {
    match op {
        b'L' => labels(sink),
        b'R' => reserved(sink),
        b'U' => unescaping(sink),
        b'D' => dates(sink),
        b'K' => calendar(sink),
        b'O' => order(sink),
        b'W' => written(sink),
        b'E' => events(sink),
        b'S' => steps(sink),
        b'V' => parser_unescaping(sink),
        b'P' | b'Q' => credits(sink, op),
        b'F' => flags(sink),
        b'N' => lookups(sink),
        b'C' => checks(sink),
        b'H' => links(sink),
        _ => {}
    }
    match op {
        b'L' => sweeps::labels(sink),
        b'U' => sweeps::unescaping(sink),
        b'D' => sweeps::dates(sink),
        b'E' => sweeps::events(sink),
        b'S' => sweeps::steps(sink),
        b'P' | b'Q' => sweeps::credits(sink, op),
        b'F' => sweeps::flags(sink),
        b'C' => sweeps::checks(sink),
        _ => {}
    }
    match op {
        b'E' => lines::events(sink),
        b'C' => lines::checks(sink),
        _ => {}
    }
    strict::put(op, sink);
}

/// The last case of all is none: what stands behind it has no answer.
pub fn put_end(sink: &mut Sink) {
    sink.put(&Case { op: b'?', ..Case::default() });
    sink.put(&Case { op: b'L', ..Case::default() });
}

pub fn bytes(sink: &mut Sink, op: u8, text: &[u8]) {
    sink.put(&Case { op, payload: text.to_vec(), ..Case::default() });
}

fn labels(sink: &mut Sink) {
    for text in
        ["", "a", "ax-1", "a.b", "A_B", "0", "-._", "a b", "a~b", "a/b", "a:b", "a@b", "a[b", "a`b", "a{b", "é", "\0"]
    {
        bytes(sink, b'L', text.as_bytes());
    }
    bytes(sink, b'L', b"abc\xff");
    bytes(sink, b'L', b" abc");
}

fn reserved(sink: &mut Sink) {
    for text in [
        "CON", "PRN", "AUX", "NUL", "con", "Prn", "aUX", "nuL", "COM1", "COM9", "com5", "LPT1", "LPT9", "lPt3", "COM0",
        "LPT0", "COM", "LPT", "", "C", "CO", "CONN", "CON ", " CON", "CON\n", "COM10", "COM1.", "COM:", "COM/", "CON1",
        "NUL9", "PRM", "cOn1", "COMa", "\u{212a}", "a", "C0N", "AUX.x",
    ] {
        bytes(sink, b'R', text.as_bytes());
    }
}

fn unescaping(sink: &mut Sink) {
    // each escape lone, doubled, tripled, at the ends, in each mode
    for escape in ["`", "[", "~", "_", "]", "a"] {
        for flag in 0..4 {
            let text = format!("{0}{0}{0} {0}b{0}{0}", escape);
            sink.put(&Case { flag, room: 16, ..span_case(b'U', text.as_bytes(), 0, text.len()) });
        }
    }
    // a pair cut by the span's end or start; two different escapes side by side
    for (text, a, b) in
        [("a~~", 0, 2), ("a~~", 2, 3), ("`~`~", 0, 4), ("``~~[[__", 0, 8), ("____", 1, 4), ("", 0, 0), ("abc", 3, 3)]
    {
        for flag in 0..4 {
            sink.put(&Case { flag, room: 9, ..span_case(b'U', text.as_bytes(), a, b) });
        }
    }
    // rooms: none, one short, exact, one more
    for (text, needed) in [("a``b", 3), ("abcd", 4), ("", 0)] {
        for room in [0, needed - 1, needed, needed + 1] {
            if room >= 0 {
                sink.put(&Case { room: room as u32, ..span_case(b'U', text.as_bytes(), 0, text.len()) });
            }
        }
    }
    // refused spans, with and without room
    for (a, b) in [(1, 0), (0, 5), (5, 5), (4, 5), (u32::MAX as usize, 0), (0, u32::MAX as usize)] {
        for room in [0, 9] {
            sink.put(&Case { room, ..span_case(b'U', b"a``b", a, b) });
        }
    }
}

fn dates(sink: &mut Sink) {
    for month in ["Jan", "Feb", "Mar", "Apr", "May", "Jun", "Jul", "Aug", "Sep", "Oct", "Nov", "Dec"] {
        bytes(sink, b'D', format!("31-{month}-2023").as_bytes());
        bytes(sink, b'D', format!("7-{month}-0000").as_bytes());
    }
    for text in [
        "+5xFebx+123",
        "+-Jan-2020",
        "1-Jan-202",
        "01-Jan-20201",
        "",
        "5-Aug-1993",
        "0-Aug-1993",
        "29-Feb-2020",
        "29-Feb-2021",
        "28-Feb-1900",
        "29-Feb-1900",
        "28-Feb-2100",
        "29-Feb-2100",
        "29-Feb-2000",
        "30-Feb-2000",
        "29-Feb-0000",
        "30-Feb-0000",
        "30-Feb-2020",
        "99-Dec-9999",
        "00-Dec-0000",
        "+-Dec-2000",
        "++-Dec-2000",
        "-1-Dec-2000",
        "1 -Dec-2000",
        "1-dec-2000",
        "1-DEC-2000",
        "1-Dex-2000",
        "1?Dec?2000",
        "1-Dec-20 0",
        "1-Dec-+000",
        "1-Dec-+",
        "1-Dec-++00",
        "1-Dec--123",
        "a-Dec-2000",
        "1a-Dec-2000",
        "/1-Dec-2000",
        "1:-Dec-2000",
        "1-Dec-200/",
        "1-Dec-200:",
        "+1-Dec-2000",
        "1+-Dec-2000",
    ] {
        bytes(sink, b'D', text.as_bytes());
    }
    bytes(sink, b'D', b"1\xffJan\x002020");
    bytes(sink, b'D', b"\xb2-Jan-2020");
    bytes(sink, b'D', b"1-Jan-20\xc3\xa9");
}

fn calendar(sink: &mut Sink) {
    for b in 0..=13 {
        for c in [0, 1, 28, 29, 30, 31, 32] {
            sink.put(&Case { op: b'K', a: 2023, b, c, ..Case::default() });
        }
    }
    let centuries = [0, 100, 200, 300, 400, 1900, 2000, 2100, 9900, 10_000, 10_100, 65_200, 65_500];
    for a in [4, 2020, 65_532, 65_535].into_iter().chain(centuries) {
        for c in [28, 29, 30] {
            sink.put(&Case { op: b'K', a, b: 2, c, ..Case::default() });
        }
    }
    for (b, c) in [(255, 1), (1, 255), (128, 128)] {
        sink.put(&Case { op: b'K', a: 1, b, c, ..Case::default() });
    }
}

fn order(sink: &mut Sink) {
    let packed = |y: u32, m: u32, d: u32| y << 16 | m << 8 | d;
    let dates =
        [packed(0, 0, 0), packed(1999, 12, 31), packed(2000, 1, 1), packed(2000, 1, 2), packed(2000, 2, 1), u32::MAX];
    for a in dates {
        for b in dates {
            sink.put(&Case { op: b'O', a, b, ..Case::default() });
        }
    }
}

fn written(sink: &mut Sink) {
    for b in 0..=13 {
        sink.put(&Case { op: b'W', a: 1993, b, c: 5, room: 11, ..Case::default() });
    }
    for (a, c) in [(0, 0), (9, 9), (10, 10), (123, 99), (999, 100), (1000, 255), (9999, 31), (10_000, 1), (65_535, 255)]
    {
        sink.put(&Case { op: b'W', a, b: 12, c, room: 20, ..Case::default() });
    }
    for room in [0, 1, 8, 9, 10, 11, 12] {
        sink.put(&Case { op: b'W', a: 2020, b: 2, c: 2, room, ..Case::default() });
        sink.put(&Case { op: b'W', a: 2020, b: 2, c: 29, room, ..Case::default() });
        sink.put(&Case { op: b'W', a: 2020, b: 0, c: 29, room, ..Case::default() });
    }
    sink.put(&Case { op: b'W', a: 2020, b: 255, c: 29, room: 99, ..Case::default() });
}
