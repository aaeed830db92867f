//! Cases that tell the two readings apart: in subscripts and italics and around them the bytes that bar them (ops E, S, C and H),
//! and parentheses in the author of a credit (ops P and Q). Like every stream of these ops they run in both readings.
use super::random::Rng;
use super::sink::{span_case, Sink};
use super::stepping::steps;
use super::texts::{any_span, each_sequence, mutated};
use super::Plan;
use crate::cases::{Case, CHECK_FLAGS};

/// The four bytes that bar, lone, doubled and tripled, and marks that begin with one.
pub const BARS: &[&str] = &[
    "`", "~", "[", "<", "``", "~~", "[[", "<<", "```", "~~~", "[[[", "~[", "<`", "` a `", "~ a", "[a]", "<HTML>",
    "</HTML>",
];

/// Where a bar is tried: at each `?`.
pub const PLACES: &[&str] = &[
    // a subscript: its first place, in it, right before its end, behind it and before it
    "x_?",
    "x_?b",
    "x_a?",
    "x_a?b c",
    "x_ab?.",
    "x_a.?",
    "x?_a",
    "x_?a?b",
    // an italic: the same, and beside a doubled underscore
    " _?a_ ",
    " _a?_ ",
    " _a?b_ ",
    " _a b?c_.",
    " _a_?",
    "?_a_ ",
    " _a__?b_ ",
    " _a?__b_ ",
    // its end behind a bar, and a second underscore behind that
    " _a?b_ c_ ",
    " _a_b?c_ ",
    " _a?b_c?d_ ",
    // over lines
    " _a\n?b_ ",
    "\n_a\n\nb?c_\n",
    // behind an opener, behind a subscript, and one in the other
    "(_a?b_)",
    "x_a_b?c_ d",
    "x_a?_b_ c",
    " _a x_b?c d_ ",
    "x_a?y_b?z",
    // where neither is read: in math, in a label, in a tag, in HTML
    "` x_a?b _c?d_ `",
    "~ x_?b c",
    "[x_a?b]",
    "<HTML>x_a?b _c</HTML>_d?e_",
];

/// What texts are put together from: marks of subscripts and italics, and the four bytes, alone and in marks.
const MARKED: &[&[u8]] = &[
    b"x_",
    b" _a",
    b"_",
    b"_ ",
    b"a",
    b"b_ ",
    b" ",
    b"\n",
    b".",
    b"(",
    b"`",
    b"~",
    b"[",
    b"<",
    b"``",
    b"~~",
    b"[[",
    b"[a]",
    b"~ a ",
    b"` a `",
    b"<HTML>",
    b"</HTML>",
    b"\xc3\xa9",
];

/// The four bytes and what ends a subscript or an italic without them.
const FOUR: &[&[u8]] = &[b"`", b"~", b"[", b"<", b"a", b"_", b"]", b".", b" "];

/// Long texts: a search up to a bar, over and over.
const LONG: &[&str] = &["x_`", "x_a~", " _a[", " _a<", "(_a__`", " _a b\n", "x_a_b[", "_a<b_ "];

/// Calls `f` with each place filled with bars, each `?` with each.
pub fn each_bar(places: &[&str], bars: &[&str], f: &mut dyn FnMut(&[u8])) {
    fn fill(place: &str, bars: &[&str], f: &mut dyn FnMut(&[u8])) {
        if !place.contains('?') {
            return f(place.as_bytes());
        }
        for bar in bars {
            fill(&place.replacen('?', bar, 1), bars, f);
        }
    }
    places.iter().for_each(|place| fill(place, bars, f));
}

/// Every text over the four bytes, alone, in a subscript and in an italic, of so many pieces; then long ones.
fn each_of_four(most: usize, f: &mut dyn FnMut(&[u8])) {
    each_sequence(FOUR, most, f);
    each_sequence(FOUR, most - 1, &mut |text| f(&[b"x_", text].concat()));
    each_sequence(FOUR, most - 1, &mut |text| f(&[b" _a", text, b"b_ "].concat()));
    LONG.iter().for_each(|text| f(text.repeat(4096 / text.len()).as_bytes()));
}

/// A text with bars by chance, and a span of it.
fn marked(rng: &mut Rng) -> (Vec<u8>, usize, usize) {
    let mut text: Vec<u8> = (0..1 + rng.below(10)).flat_map(|_| rng.pick(MARKED).to_vec()).collect();
    if rng.percent(20) {
        text = mutated(rng, &text);
    }
    let (a, b) = any_span(rng, text.len());
    (text, a, b)
}

pub fn events(plan: &Plan, sink: &mut Sink) {
    let whole = |text: &[u8]| span_case(b'E', text, 0, text.len());
    each_bar(PLACES, BARS, &mut |text| {
        sink.put_roomed(whole(text));
        // cut before a bar, in it or behind it, and from the byte behind the first
        for (a, b) in [(0, text.len() - 1), (0, text.len() / 2), (1, text.len()), (text.len() / 2, text.len())] {
            sink.put_roomed(span_case(b'E', text, a, b));
        }
    });
    each_of_four(plan.either(5, 6), &mut |text| sink.put_roomed(whole(text)));
    each_sequence(MARKED, plan.either(3, 4), &mut |text| sink.put_roomed(whole(text)));
    for _ in 0..plan.either(30_000, 1_000_000) {
        let (text, a, b) = marked(&mut sink.rng);
        sink.put_roomed(span_case(b'E', &text, a, b));
    }
}

/// One step and all steps from a fresh start; then every state over a few texts.
pub fn stepped(plan: &Plan, sink: &mut Sink) {
    let fresh = |text: &[u8]| [text.len() as u32, 0, 0, 0, 0, 0, 0, 0, u32::MAX, 0];
    each_bar(PLACES, BARS, &mut |text| {
        sink.put(&steps(fresh(text), text, 1));
        sink.put(&steps(fresh(text), text, 1000));
    });
    each_of_four(plan.either(4, 5), &mut |text| sink.put(&steps(fresh(text), text, 1000)));
    each_bar(&["x_a?b", "_a?b_", "x_?_a"], &["`", "~", "[", "<", "[a]"], &mut |text| {
        let length = text.len() as u32;
        for pos in 0..=length {
            for mode in 0..4 {
                for italic in (pos..=length).chain([u32::MAX]) {
                    for subscript in 0..=length {
                        let state = [length, pos, mode & 1, mode >> 1, 0, 0, 0, 0, italic, subscript];
                        sink.put(&steps(state, text, 1000));
                    }
                }
            }
        }
    });
}

/// By both flags.
pub fn checks(plan: &Plan, sink: &mut Sink) {
    for number in 1..=3 {
        sink.lend(number, &["a", "ab", "x_a"]);
    }
    let put = |sink: &mut Sink, text: &[u8], a: usize, b: usize| {
        for flag in CHECK_FLAGS {
            sink.put_roomed(Case { flag, ..span_case(b'C', text, a, b) });
        }
    };
    each_bar(PLACES, BARS, &mut |text| put(sink, text, 0, text.len()));
    each_of_four(plan.either(4, 5), &mut |text| put(sink, text, 0, text.len()));
    for _ in 0..plan.either(10_000, 300_000) {
        let (text, a, b) = marked(&mut sink.rng);
        put(sink, &text, a, b);
    }
}

/// Labels behind an underscore and in what would be an italic; the empty one and those with an underscore among the names.
pub fn links(plan: &Plan, sink: &mut Sink) {
    sink.lend(2, &["", "a", "a_", "ab", "b_", "b_]", "a_b"]);
    let whole = |text: &[u8]| span_case(b'H', text, 0, text.len());
    each_bar(PLACES, BARS, &mut |text| sink.put_roomed(whole(text)));
    each_of_four(plan.either(4, 5), &mut |text| sink.put_roomed(whole(text)));
    for _ in 0..plan.either(10_000, 300_000) {
        let (text, a, b) = marked(&mut sink.rng);
        sink.put_roomed(span_case(b'H', &text, a, b));
    }
}
