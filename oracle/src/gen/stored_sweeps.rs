//! Stored cases by the hundred: document 01's samples in every span and every room, and telling bytes at each place that a rule asks about.
use super::sink::{span_case, Sink};
use super::stepping::state_bytes;
use super::stored::bytes;
use super::texts::{each_span, SAMPLES, TELLING};
use crate::cases::Case;
use crate::lines::LINED_WIDTH;

/// Each sample in every span with the room it needs, and whole in every room up to one more.
fn samples(sink: &mut Sink, op: u8) {
    for text in SAMPLES {
        each_span(text.len(), &mut |a, b| {
            let case = span_case(op, text.as_bytes(), a, b);
            let room = sink.needed(&case);
            sink.put(&Case { room, ..case });
        });
        let case = span_case(op, text.as_bytes(), 0, text.len());
        for room in 0..=sink.needed(&case) + 1 {
            sink.put(&Case { room, ..case.clone() });
        }
    }
}

/// Each template with each telling byte in place of `?`.
fn templates(sink: &mut Sink, op: u8, templates: &[&str]) {
    for template in templates {
        for &byte in TELLING {
            let text: Vec<u8> = template.bytes().map(|c| if c == b'?' { byte } else { c }).collect();
            sink.put(&Case { room: 64, ..span_case(op, &text, 0, text.len()) });
        }
    }
}

/// A text with each of these bytes at each place.
fn each_change(text: &[u8], bytes: &[u8], f: &mut dyn FnMut(&[u8])) {
    for at in 0..text.len() {
        for &byte in bytes {
            let mut other = text.to_vec();
            other[at] = byte;
            f(&other);
        }
    }
}

pub fn events(sink: &mut Sink) {
    samples(sink, b'E');
    let beside_marks = [
        "?_a_", "_?a_", "_a?_", "_a_?", "x_?b", "x_a?b", "~?a", "~ a?b", "[?]", "?`a`", "`?a`", "`a`?", "( ?`a`",
        "\n?\n",
    ];
    templates(sink, b'E', &beside_marks);
}

pub fn checks(sink: &mut Sink) {
    sink.lend(1, &["a", "b.c"]);
    sink.lend(2, &["a", "ax-1"]);
    sink.lend(3, &["a"]);
    samples(sink, b'C');
    let beside_marks = ["a`?a `", "a` a?`", "?` a `", "` a `?", "?~ a", "~?a", "~ a?", "[?]", "<htm?>", "a??"];
    templates(sink, b'C', &beside_marks);
}

/// Each sample from a fresh state, with each number of steps up to two behind its end.
pub fn steps(sink: &mut Sink) {
    for text in SAMPLES {
        let length = text.len() as u32;
        let state = state_bytes([length, 0, 0, 0, 0, 0, 0, 0, u32::MAX, 0]);
        let events = sink.needed(&span_case(b'E', text.as_bytes(), 0, text.len())) / LINED_WIDTH;
        for c in 1..=events + 2 {
            sink.put(&Case { op: b'S', c, payload: [&state[..], text.as_bytes()].concat(), ..Case::default() });
        }
    }
}

/// Each byte alone.
pub fn labels(sink: &mut Sink) {
    (0..=255).for_each(|byte| bytes(sink, b'L', &[byte]));
}

/// Each byte lone, doubled and tripled, in each mode.
pub fn unescaping(sink: &mut Sink) {
    let text: Vec<u8> = (0..=255u8).flat_map(|b| [b, b' ', b, b, b' ', b, b, b, b' ']).collect();
    for flag in 0..4 {
        let case = Case { flag, ..span_case(b'U', &text, 0, text.len()) };
        sink.put_every_room(case);
    }
}

/// A date with each byte at the edges of the rules at each place.
pub fn dates(sink: &mut Sink) {
    each_change(b"05-Aug-1993", b"/09:+- Aa", &mut |text| bytes(sink, b'D', text));
}

/// A credit and a notice with a blank of either sort, a mark or a byte that is no character at each place.
pub fn credits(sink: &mut Sink, op: u8) {
    each_change(b"(Revised by A B, 1-Jan-2020.)", b" \t\n(),.\xff", &mut |text| {
        sink.put(&Case { room: 14, c: 2, ..span_case(op, text, 0, text.len()) });
    });
}

pub fn flags(sink: &mut Sink) {
    for text in ["(New usage is discouraged.)", "(Proof modification is discouraged.)"] {
        each_change(text.as_bytes(), b" \n\t(", &mut |text| bytes(sink, b'F', text));
    }
}
