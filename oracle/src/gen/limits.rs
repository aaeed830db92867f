//! Sizes at the limits: the largest payloads, rooms and tables that a case may have.
use super::comments::long_comment;
use super::sink::{span_case, table, Sink};
use super::stepping::state_bytes;
use super::Plan;
use crate::cases::{Case, CHECK_FLAGS, MOST_BYTES, MOST_TEXT, MOST_WORDS};
use crate::lines::LINED_WIDTH;

const MOST: usize = MOST_BYTES as usize;

/// The text over and over, cut at `length`.
fn filled(text: &[u8], length: usize) -> Vec<u8> {
    text.iter().copied().cycle().take(length).collect()
}

/// Texts of the most bytes. Those that cost the crate a square of their length are shorter.
fn large_texts(plan: &Plan, sink: &mut Sink) -> Vec<Vec<u8>> {
    let plain: &[&[u8]] = &[
        b"a",
        b"\n",
        b"`",
        b"``",
        b"` ",
        b"_",
        b"__",
        b"x_0 ",
        b" _a_",
        b"~ a ",
        b"~",
        b"[] ",
        b"[[",
        b"<HTML></HTML>",
        b"\"( `",
    ];
    let square: &[&[u8]] = &[b"[a", b"[a``", b" _a", b"<HTML>[", b"~[a", b"\n_a"];
    let mut texts: Vec<Vec<u8>> = plain.iter().map(|t| filled(t, MOST)).collect();
    texts.extend(square.iter().map(|t| filled(t, plan.either(4_096, 16_384))));
    for _ in 0..plan.either(3, 40) {
        texts.push(long_comment(&mut sink.rng, MOST));
    }
    texts
}

/// Every large text with rooms none, one short, exact and the most.
fn at_limits(plan: &Plan, sink: &mut Sink, op: u8, flag: u8, most: u32, texts: &[Vec<u8>]) {
    for text in texts {
        let mut case = Case { flag, ..span_case(op, text, 0, text.len()) };
        let exact = sink.needed(&case);
        for room in [0, exact.saturating_sub(1), exact, most] {
            case.room = room;
            sink.put(&case);
        }
        if plan.long {
            for _ in 0..4 {
                (case.a, case.b) =
                    (sink.rng.below(MOST / 2) as u32, (text.len() - sink.rng.below(text.len() / 2)) as u32);
                if case.a <= case.b {
                    sink.put(&case);
                }
            }
        }
    }
}

pub fn events(plan: &Plan, sink: &mut Sink) {
    let texts = large_texts(plan, sink);
    at_limits(plan, sink, b'E', 0, MOST_WORDS, &texts);
    behind_most_lines(sink, b'E');
    // the longest list that the most room takes, and one word short: LF bytes give the most records, two each but for the first
    let feeds = (MOST_WORDS / LINED_WIDTH + 1) / 2;
    let text = filled(b"\n", feeds as usize);
    let exact = (2 * feeds - 1) * LINED_WIDTH;
    for room in [exact - 1, exact] {
        sink.put(&Case { room, ..span_case(b'E', &text, 0, text.len()) });
    }
}

/// Spans behind the most lines: LF bytes, and a mark at the payload's end.
fn behind_most_lines(sink: &mut Sink, op: u8) {
    for mark in ["x_0", "_", "~", "~ b~", "` a", "[b]", "<HTML>", "\n\n", ""] {
        let front = MOST - mark.len();
        let text = [&filled(b"\n", front)[..], mark.as_bytes()].concat();
        sink.put_every_room(span_case(op, &text, front, MOST));
    }
}

pub fn parentheticals(plan: &Plan, sink: &mut Sink) {
    let credits: &[&[u8]] = &[
        b"(Contributed by A, 1-Jan-2020.)",
        b"(New usage is discouraged.)",
        b"(Contributed by ",
        b"(Contributed by A, ",
        b"(",
        b"(Proof ",
        b"(Proof shortened by \xc3\xa9",
        b" ",
    ];
    let texts: Vec<Vec<u8>> = credits.iter().map(|t| filled(t, plan.either(16_384, MOST))).collect();
    at_limits(plan, sink, b'P', 0, MOST_WORDS, &texts);
    // one author as long as a payload allows
    let author = filled(b"A ", MOST - 31);
    let text = [b"(Contributed by A", &author[..], b", 1-Jan-2020.)"].concat();
    sink.put(&Case { room: 7, ..span_case(b'P', &text, 0, text.len()) });
    let spaces = filled(b" \n\r", MOST - 31);
    let text = [b"(Contributed by A", &spaces[..], b", 1-Jan-2020.)"].concat();
    sink.put(&Case { room: 7, ..span_case(b'P', &text, 0, text.len()) });
    let text = [b"(Contributed by ", &spaces[..], b"A, 1-Jan-2020.)"].concat();
    sink.put(&Case { room: 7, ..span_case(b'P', &text, 0, text.len()) });
}

pub fn unescaping(_: &Plan, sink: &mut Sink) {
    let texts: &[&[u8]] = &[b"a", b"`", b"``a", b"[[", b"~", b"__", b"`[~_"];
    for text in texts {
        let text = filled(text, MOST);
        for flag in 0..4 {
            let mut case = Case { flag, ..span_case(b'U', &text, 0, MOST) };
            let exact = sink.needed(&case);
            for room in [0, exact.saturating_sub(1), exact, MOST_TEXT] {
                case.room = room;
                sink.put(&case);
            }
            for (a, b) in [(MOST, MOST), (MOST - 1, MOST), (0, MOST + 1), (1, MOST)] {
                sink.put(&Case { room: MOST_TEXT, flag, ..span_case(b'U', &text, a, b) });
            }
        }
    }
}

pub fn parser_unescaping(_: &Plan, sink: &mut Sink) {
    let length = MOST - 40;
    for html in [0, 1] {
        let state = state_bytes([length as u32, 0, 0, html, 0, 0, 0, 0, u32::MAX, 0]);
        let payload = [&state[..], &filled(b"``_~~a__", length)].concat();
        for flag in [0, 2, 3] {
            let case = Case { op: b'V', flag, b: length as u32, payload: payload.clone(), ..Case::default() };
            sink.put_every_room(case);
        }
    }
}

/// Tables with the most ends, and with the most bytes; the first, middle and last entries looked up.
pub fn lookups(_: &Plan, sink: &mut Sink) {
    for (flag, most_ends, most_bytes) in [(1, 65_536, 262_144), (2, 131_072, 2_097_152), (3, 65_536, 262_144)] {
        // names of three bytes, which leave no room for the most ends but in table 2
        let count = if flag == 2 { most_ends } else { (most_bytes - 3 * 40_000) / 4 };
        let names: Vec<Vec<u8>> = (0..count as u32).map(|i| i.to_be_bytes()[1..].to_vec()).collect();
        let ends: Vec<u32> = (1..=count as u32).map(|i| 3 * i).collect();
        let bytes = names.concat();
        if 4 * ends.len() + bytes.len() <= most_bytes {
            sink.put(&table(flag, &ends, &bytes));
            for name in [&names[0], &names[count / 2], &names[count - 1]] {
                sink.put(&Case { op: b'N', flag, payload: name.clone(), ..Case::default() });
            }
            sink.put(&Case { op: b'N', flag, payload: vec![0xff; 3], ..Case::default() });
        }
        // the most ends, all equal: entry 1 is bad
        sink.put(&table(flag, &vec![0; most_ends.min(most_bytes / 4)], b""));
        sink.put(&Case { op: b'N', flag, ..Case::default() });
        // one name as long as the payload, looked up by what a case can hold of it
        let long = vec![b'x'; most_bytes - 4];
        sink.put(&table(flag, &[long.len() as u32], &long));
        sink.put(&Case { op: b'N', flag, payload: vec![b'x'; MOST], ..Case::default() });
        let long = vec![b'x'; MOST];
        sink.put(&table(flag, &[MOST as u32], &long));
        sink.put(&Case { op: b'N', flag, payload: long, ..Case::default() });
    }
}

/// With a bibliography by both flags, and without one.
pub fn checks(plan: &Plan, sink: &mut Sink) {
    let mut texts = large_texts(plan, sink);
    // a tag, found or not, in every three bytes
    texts.extend([&b"[A]"[..], b"[B]"].map(|t| filled(t, MOST)));
    sink.lend(1, &["a", "ph"]);
    sink.lend(2, &["a", "ax-1"]);
    sink.lend(3, &["A"]);
    behind_most_lines(sink, b'C');
    for flag in CHECK_FLAGS {
        at_limits(plan, sink, b'C', flag, MOST_WORDS, &texts);
    }
    sink.lend_no_bibliography();
    at_limits(plan, sink, b'C', 0, MOST_WORDS, &texts);
}

/// The most records, the largest table, the longest label, and tables that are bad as late as can be.
pub fn links(plan: &Plan, sink: &mut Sink) {
    sink.lend(2, &["", "a", "a~"]);
    let mut texts = large_texts(plan, sink);
    // a label, found, in every three bytes
    texts.extend([&b"~[]"[..], b"~a ", b"~a~~\n"].map(|t| filled(t, MOST)));
    at_limits(plan, sink, b'H', 0, MOST_WORDS, &texts);
    // the most ends and the most bytes at once: names of twelve bytes
    let names: Vec<String> = (0..131_072).map(|entry| format!("{entry:012x}")).collect();
    let ends: Vec<u32> = (1..=131_072).map(|count| 12 * count).collect();
    let bytes = names.concat().into_bytes();
    sink.put(&table(2, &ends, &bytes));
    let labels: String = names.iter().rev().step_by(31).chain(&names[..1]).map(|name| format!("~ {name} ")).collect();
    at_limits(plan, sink, b'H', 0, MOST_WORDS, &[labels.into_bytes()]);
    // its last end one short; its last name as the one before
    let ask = span_case(b'H', b"~ a", 0, 3);
    let mut short = ends.clone();
    short[131_071] -= 1;
    sink.put(&table(2, &short, &bytes));
    sink.put(&ask);
    let twice = [&bytes[..12 * 131_071], names[131_070].as_bytes()].concat();
    sink.put(&table(2, &ends, &twice));
    sink.put(&ask);
    // labels as long as a payload allows, plain and all escapes
    let (plain, escapes) = (filled(b"x", MOST - 2), filled(b"[", MOST - 2));
    sink.lend(2, &[&plain[..], &escapes[..MOST / 2 - 1]]);
    for label in [plain, escapes] {
        sink.put_every_room(span_case(b'H', &[b"~ ", &label[..]].concat(), 0, MOST));
    }
    // one name as long as a table allows
    let long = vec![b'x'; 2_097_152 - 4];
    sink.put(&table(2, &[long.len() as u32], &long));
    sink.put(&Case { room: 3, ..span_case(b'H', &[b"~ ", &long[..MOST - 2]].concat(), 0, MOST) });
}

/// The largest payloads of the ops that read bytes and no span: L, R, D and F, whichever the stream is for.
fn large_bytes(sink: &mut Sink, op: u8, texts: &[&[u8]]) {
    for text in texts {
        for length in [MOST - 1, MOST] {
            sink.put(&Case { op, payload: filled(text, length), ..Case::default() });
        }
        let mut last_differs = filled(text, MOST);
        last_differs[MOST - 1] = b'~';
        sink.put(&Case { op, payload: last_differs, ..Case::default() });
    }
}

pub fn labels(_: &Plan, sink: &mut Sink) {
    large_bytes(sink, b'L', &[b"a", b"ax-1.", b" "]);
}

pub fn reserved(_: &Plan, sink: &mut Sink) {
    large_bytes(sink, b'R', &[b"CON", b"COM1", b"a"]);
}

pub fn dates(_: &Plan, sink: &mut Sink) {
    large_bytes(sink, b'D', &[b"1-Jan-2020", b"1"]);
}

pub fn flags(_: &Plan, sink: &mut Sink) {
    large_bytes(
        sink,
        b'F',
        &[b"(New usage is discouraged.) ", b"(Proof ", b"(", b"(Proof modification is discouraged.)x"],
    );
    for form in ["(New usage is discouraged.)", "(Proof modification is discouraged.)"] {
        let text = [&filled(b"(New usage is ", MOST - form.len())[..], form.as_bytes()].concat();
        sink.put(&Case { op: b'F', payload: text, ..Case::default() });
    }
}

/// Large buffers stepped through from the start and from the middle.
pub fn steps(plan: &Plan, sink: &mut Sink) {
    for mut text in large_texts(plan, sink) {
        text.truncate(MOST - 40);
        let length = text.len() as u32;
        for (pos, c) in [(0, 3), (length / 2, 1000), (length - 1, 10), (length, 1)] {
            let state = state_bytes([length, pos, 0, 0, 0, 0, 0, 0, u32::MAX, 0]);
            sink.put(&Case { op: b'S', c, payload: [&state[..], &text].concat(), ..Case::default() });
        }
    }
}

pub fn credit_steps(_: &Plan, sink: &mut Sink) {
    let credits: &[&[u8]] =
        &[b"(Contributed by A, 1-Jan-2020.)", b"(New usage is discouraged.)", b"(Contributed by ", b"("];
    for text in credits {
        let text = filled(text, MOST);
        for c in [1, 1000, u32::MAX] {
            sink.put(&Case { c, ..span_case(b'Q', &text, 0, MOST) });
        }
    }
}
