//! The stored cases about the line of an event (op E) and of a diagnostic (op C); document 01's samples are swept beside them.
use super::sink::{span_case, Sink};
use crate::cases::{Case, NO_TAG_LOOKUP};
use crate::lines::LINED_WIDTH;

/// Rooms around one record and two, and none.
const ROOMS: [u32; 5] = [0, LINED_WIDTH - 1, LINED_WIDTH, 2 * LINED_WIDTH - 1, 2 * LINED_WIDTH];

/// Each with the place where its span starts; it ends at the bar, which is taken out, or at the text's end.
const EVENTS: &[(&str, usize)] = &[
    // lines before the span: LF bytes alone, with CR and blanks between, and none of the bytes next to it
    ("\n\n\nx", 3),
    ("\r\n \r\n\tx_0", 6),
    ("\t\u{b}\r\u{c}\u{a}\u{b}x", 6),
    // from an LF, from behind one; lines behind the span count nothing
    ("a\nb", 1),
    ("a\nb", 2),
    ("a|\n\nb", 0),
    // each event behind an LF or at one, and marks far from their texts
    ("a\n\nb\n \nc", 1),
    ("x_0\ny_1", 0),
    ("\n_a\nb_\n", 1),
    ("\n ~\n\n a\n ~ mmx", 1),
    ("\n` a\nb\n`\nc", 1),
    ("[A]\n[B]\n<HTML>\n_\n\n</HTML>\n", 0),
];

const DIAGNOSTICS: &[(&str, usize)] = &[
    // each kind on a line of its own, and lines before the span
    ("\n`b `\n_ \n<html>\n ~\n\n [b~]\n ~ c\n<HTML>\n ` a\n", 0),
    ("\n\r\n a\n\n`b` _", 5),
    ("a\n_|\n", 2),
    // 3 points back over its text's 2s, 9 and 10 over what is open
    ("\n<html>\n_\n_", 1),
    ("\n<HTML>\n`\n\nb\n", 1),
    // the tilde's line and the label's; 6 behind the label's 2s, 8 behind the tag's 7s
    ("\nx~\n\nb~c~", 1),
    ("\n ~\n\n", 1),
    ("\n\n[b~c~]", 1),
];

fn put(sink: &mut Sink, op: u8, flag: u8, text: &str, a: usize, room: u32) {
    let b = text.find('|').unwrap_or(text.len());
    let buf = text.replace('|', "");
    sink.put(&Case { flag, room, ..span_case(op, buf.as_bytes(), a, b) });
}

/// Behind more lines than a byte counts.
fn behind_many(sink: &mut Sink, op: u8) {
    let text = "\n".repeat(300) + "_";
    put(sink, op, 0, &text, 300, LINED_WIDTH);
}

pub fn events(sink: &mut Sink) {
    for &(text, a) in EVENTS {
        put(sink, b'E', 0, text, a, 64);
    }
    for room in ROOMS {
        put(sink, b'E', 0, "\n` a", 1, room);
    }
    behind_many(sink, b'E');
}

pub fn checks(sink: &mut Sink) {
    for number in 1..=3 {
        sink.lend(number, &["a"]);
    }
    for &(text, a) in DIAGNOSTICS {
        put(sink, b'C', 0, text, a, 64);
    }
    for room in ROOMS {
        put(sink, b'C', 0, "<html>\n_", 0, room);
    }
    put(sink, b'C', NO_TAG_LOOKUP, "\n[b~]", 1, 64);
    behind_many(sink, b'C');
}
