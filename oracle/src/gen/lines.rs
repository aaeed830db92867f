//! Cases about the line of an event and of a diagnostic (ops E and C): LF bytes before the span, in it and behind it.
use super::comments::long_comment;
use super::random::Rng;
use super::sink::{span_case, Sink};
use super::texts::each_sequence;
use super::Plan;
use crate::cases::{Case, CHECK_FLAGS};
use crate::lines::LINED_WIDTH;

/// What stands before a span, and counts: with and without LF bytes, and with one last or not.
const BEFORE: &[&[u8]] =
    &[b"", b"a", b"\n", b"\n\n", b"\r", b"\r\n", b"a\n", b"\na", b" \n\t\r\n ", b"_\n`\n<HTML>\n~\n"];

/// What stands behind a span, and counts nothing.
const BEHIND: &[&[u8]] = &[b"", b"", b"\n", b"a\n"];

/// Lines without their LF: blanks, texts, marks, and bytes that are nearly one.
const LINES: &[&[u8]] = &[b"", b"", b" ", b"\r", b"\t\r", b"a", b"x_0 ~ ax-1.", b"` a", b"\x0b", b"\x8a\x0b", b"\x09"];

/// Events with LF bytes in them and beside them.
const EVENTS: &[&[u8]] =
    &[b"\n", b" ", b"a", b"\r\n", b"x_0", b"_a_", b"_a\nb_", b"~ a", b"~\n\na", b"`", b"[a]", b"<HTML>", b"</HTML>"];

/// Each diagnostic's part, with LF bytes in it and beside it; `a` is a symbol, a label and a tag.
const DIAGNOSTICS: &[&[u8]] = &[
    b"\n",
    b" ",
    b"a",
    b"\r\n",
    b"_",
    b"<html>",
    b"<html>\n_\n",
    b"`",
    b"~ b~",
    b"~\n\nb~c~",
    b"~",
    b"[b~]",
    b"<HTML>",
];

/// What opens, what stands on each line behind it, and what closes.
const STRETCHED: &[(&str, &str, &str)] = &[
    // line breaks, and plain lines
    ("", "\n", ""),
    ("", "a\r\n", "_"),
    // an italic, a label and math over lines
    ("_a", "\nb", "_"),
    ("~", "\n", "a"),
    ("` ", "\na", " `"),
    // subscripts that end at an LF, the last at the span's end
    ("", "\nx_0", ""),
    // a label's 1 on the tilde's line, its 2s and 6 far behind; a tag's 8 behind its 7s
    ("x~", "\n", "b~c~"),
    ("", "\n[b~c~]", ""),
    // 3 behind the 2s of its text, which stand on later lines
    ("<html>", "\n_", ""),
    // 9 and 10 point back over all lines, and 10 past 9
    ("`", "\nb", ""),
    ("<HTML>", "\n", ""),
    ("<HTML>\n` ", "\nb", ""),
];

pub fn events(plan: &Plan, sink: &mut Sink) {
    each_sort(plan, sink, b'E', 0, EVENTS);
}

/// With a bibliography by both flags, and without one.
pub fn checks(plan: &Plan, sink: &mut Sink) {
    for number in 1..=3 {
        sink.lend(number, &["a"]);
    }
    for flag in CHECK_FLAGS {
        each_sort(plan, sink, b'C', flag, DIAGNOSTICS);
    }
    sink.lend_no_bibliography();
    each_sort(plan, sink, b'C', 0, DIAGNOSTICS);
}

/// A case whose span has something before it and behind it.
fn between(op: u8, flag: u8, before: &[u8], text: &[u8], behind: &[u8]) -> Case {
    let buf = [before, text, behind].concat();
    Case { flag, ..span_case(op, &buf, before.len(), before.len() + text.len()) }
}

/// The case in rooms around one record and two, and in one by chance.
fn put_few_rooms(sink: &mut Sink, case: Case) {
    for room in [LINED_WIDTH - 1, LINED_WIDTH, 2 * LINED_WIDTH - 1, 2 * LINED_WIDTH] {
        sink.put(&Case { room, ..case.clone() });
    }
    sink.put_roomed(case);
}

/// So many lines by chance.
fn lines(rng: &mut Rng, count: usize) -> Vec<u8> {
    (0..count).flat_map(|_| [rng.pick(LINES), b"\n"].concat()).collect()
}

fn each_sort(plan: &Plan, sink: &mut Sink, op: u8, flag: u8, pieces: &[&[u8]]) {
    each_sequence(pieces, plan.either(3, 4), &mut |text| {
        for before in BEFORE {
            let behind = sink.rng.pick(BEHIND);
            sink.put_roomed(between(op, flag, before, text, behind));
        }
    });
    // a lone underscore is one event, and one diagnostic
    each_front(&mut |before| sink.put(&Case { room: LINED_WIDTH, ..between(op, flag, before, b"_", b"") }));
    for &(open, line, close) in STRETCHED {
        for inside in [0, 1, 2, 12, plan.either(300, 3_000)] {
            let text = [open, &line.repeat(inside)[..], close].concat();
            for count in [0, 1, 3, 40, 900, 4_000] {
                let (before, behind) = (lines(&mut sink.rng, count), sink.rng.pick(BEHIND));
                put_few_rooms(sink, between(op, flag, &before, text.as_bytes(), behind));
            }
        }
    }
    for _ in 0..plan.either(2_000, 100_000) {
        at_a_line(sink, op, flag);
    }
}

/// Short fronts: each byte beside an LF, an LF at each place, and LF bytes alone, so many that a count by words is seen.
fn each_front(f: &mut dyn FnMut(&[u8])) {
    for byte in 0..=255 {
        for front in [&[byte][..], &[byte, b'\n'], &[b'\n', byte], &[b'\n', byte, b'\n'], &[byte; 17]] {
            f(front);
        }
    }
    for length in 0..=34 {
        f(&vec![b'\n'; length]);
        for at in 0..length {
            let mut front = vec![b'a'; length];
            front[at] = b'\n';
            f(&front);
        }
    }
}

/// A span of a text of many lines, mostly one that starts at an LF or right behind it.
fn at_a_line(sink: &mut Sink, op: u8, flag: u8) {
    let rng = &mut sink.rng;
    let (count, length) = (rng.below(60), 1 + rng.below(600));
    let text = [lines(rng, count), long_comment(rng, length)].concat();
    let mut a = rng.below(text.len() + 1);
    if rng.percent(75) {
        let lf = text[a..].iter().position(|&byte| byte == b'\n').map_or(text.len() - 1, |n| a + n);
        a = lf + rng.below(2);
    }
    let b = a + rng.below(text.len() - a + 1);
    sink.put_roomed(Case { flag, ..span_case(op, &text, a, b) });
}
