//! Cases for the event records of a span (op E).
use super::comments;
use super::sink::{span_case, Sink};
use super::texts::{any_span, each_text, mutated};
use super::Plan;
use crate::cases::Case;
use crate::lines::LINED_WIDTH;

/// Every text over the alphabets of the reading rules, whole and in every span.
pub fn exhaustive(plan: &Plan, sink: &mut Sink) {
    each_text(plan.either(0, 1), &mut |text, a, b| sink.put_roomed(span_case(b'E', text, a, b)));
}

/// Places where a rule asks which byte stands there: `?` is filled with every byte there is.
const ASKING: &[&str] = &[
    "x_?y z",
    "x?_y",
    "_?a_ ",
    "?_a_",
    "_a?_",
    "_a_?",
    "_a?b_",
    "x_a?b",
    "`?`",
    "`a?b`",
    "( `a`?)",
    "?`a`",
    "(?`a`",
    "? `a`",
    "\"? `a`",
    "?\" `a`",
    "`a`?",
    "`a` ?",
    "`a`?.",
    "~?a",
    "~a?b",
    "~ a?b c",
    "~ a ?",
    "(?~ a",
    "[?]",
    "[a?b]",
    "[a?",
    "?[a]",
    "~ a[?]",
    "\n?\n",
    "\n ? \n",
    "?\n\n",
    "<HTML>?</HTML>",
    "<HTM?>",
    "~ <HTM?>",
    "~ http?//x",
    "~ ?m",
    "<?HTML>",
    "??",
    "a??b",
    "_??a_",
    "`??`",
    "~ a??b",
    "[a??b]",
];

/// Each of them with every byte; in the long run also between every two bytes.
pub fn bytes(plan: &Plan, sink: &mut Sink) {
    for template in ASKING {
        for byte in 0..=255u8 {
            let text: Vec<u8> = template.bytes().map(|c| if c == b'?' { byte } else { c }).collect();
            sink.put_roomed(span_case(b'E', &text, 0, text.len()));
            sink.put_roomed(span_case(b'E', &text, 1.min(text.len()), text.len()));
        }
    }
    if plan.long {
        for pair in 0..=u16::MAX {
            let [p, q] = pair.to_le_bytes();
            for text in
                [[b' ', b'_', p, q, b'_'], [b'a', b'_', p, q, b'.'], [p, q, b' ', b'`', b'a'], [b'~', p, q, b' ', b'.']]
            {
                sink.put_roomed(span_case(b'E', &text, 0, 5));
            }
        }
    }
}

pub fn random(plan: &Plan, sink: &mut Sink) {
    for _ in 0..plan.either(60_000, 3_000_000) {
        let mut text = comments::comment(&mut sink.rng);
        if sink.rng.percent(40) {
            text = mutated(&mut sink.rng, &text);
        }
        let (a, b) = any_span(&mut sink.rng, text.len());
        sink.put_roomed(span_case(b'E', &text, a, b));
    }
}

/// Every room from none to more than enough, and refused spans with each.
pub fn rooms(plan: &Plan, sink: &mut Sink) {
    for _ in 0..plan.either(300, 5_000) {
        let text = comments::comment(&mut sink.rng);
        let mut case = span_case(b'E', &text, 0, text.len());
        for room in 0..=sink.needed(&case) + LINED_WIDTH + 1 {
            case.room = room;
            sink.put(&case);
        }
        let length = text.len();
        let refused = [(1, 0), (0, length + 1), (length + 1, length), (length + 1, length + 1), (0, u32::MAX as usize)];
        for (a, b) in refused {
            sink.put(&Case { room: 2 * LINED_WIDTH, ..span_case(b'E', &text, a, b) });
        }
        sink.put_every_room(case);
    }
}
