//! Cases that tell the two readings apart by their credits (ops P and Q): an opening parenthesis at each place of an author's field,
//! and credits that open before another closes.
use super::credits::{listed, stepped, Emit};
use super::sink::Sink;
use super::texts::{any_span, each_sequence, mutated};
use super::Plan;

const OPENINGS: &[&str] = &["(Contributed by ", "(Revised\nby  ", "(Proof shortened by "];
const CLOSE: &str = ", 12-Mar-2020.)";
const NOTICES: &[&str] = &["(New usage is discouraged.)", "(Proof modification is discouraged.)"];

/// Authors' fields with a parenthesis: first, behind the blanks, in the middle, before the comma, alone, and beside other bytes.
pub const AUTHORS: &[&[u8]] = &[
    b"(Ann",
    b"( Ann",
    b" (Ann",
    b"\n (Ann",
    b"A(nn",
    b"Ann (B",
    b"Ann(",
    b"Ann (",
    b"(",
    b"((",
    b" ( ",
    b"Ann ((B",
    b"Ann (B (C",
    b"(Contributed",
    b"(Contributed by",
    b"Ann (Revised",
    b"Ann (Revised by",
    b"Ann (Revised by ",
    b"Ann (Proof shortened by ",
    b"Ann (New usage",
    b"Ann (New usage is discouraged.",
    b"Ann (New usage is discouraged.)",
    b"(Proof modification is discouraged.) Ann",
    b"Ann (B)",
    b"(B) Ann",
    b"Ann) B",
    b"Ann (B, C",
    b"\xc3\xa9(",
    b"(\xc3\xa9",
    b"\xf0\x9f\x98\x80 (\xe2\x82\xac",
    b"\xc3(",
    b"(\xff",
    b"\xff(Revised by B",
    b"Ann\t(Revised by\xc2\xa0",
];

/// What credits are put together from.
const PIECES: &[&[u8]] = &[
    b"(Contributed by ",
    b"(Revised by ",
    b"(Proof shortened by ",
    b"(New usage is discouraged.)",
    b", 1-Jan-2020.)",
    b"Ann",
    b"\xc3\xa9",
    b"\xff",
    b"(",
    b")",
    b",",
    b" ",
    b"\n",
];

/// What may stand between an opening and the next.
const BETWEEN: &[&str] =
    &["Ann ", "Ann", "", " ", "\u{e9} ", "Ann, ", "Ann) ", "(", ",", "(New usage is discouraged.) ", CLOSE];

pub fn credits_listed(plan: &Plan, sink: &mut Sink) {
    each_sort(plan, sink, listed, plan.either(20_000, 500_000), plan.either(4, 5));
}

pub fn credits_stepped(plan: &Plan, sink: &mut Sink) {
    each_sort(plan, sink, stepped, plan.either(10_000, 200_000), plan.either(3, 4));
}

fn each_sort(plan: &Plan, sink: &mut Sink, emit: Emit, many: usize, most: usize) {
    let mut whole = |sink: &mut Sink, text: &[u8]| emit(sink, text, 0, text.len());
    for open in OPENINGS {
        for author in AUTHORS {
            for next in ["", " (Revised by B, 1-Jan-2020.)"].into_iter().chain(NOTICES.iter().copied()) {
                whole(sink, &[open.as_bytes(), author, CLOSE.as_bytes(), next.as_bytes()].concat());
            }
        }
        parenthesis_everywhere(sink, &format!("{open}Ann B{CLOSE}"), &mut whole);
    }
    nested(sink, &mut whole);
    each_sequence(PIECES, most, &mut |text| whole(sink, text));
    long(plan, sink, &mut whole);
    for _ in 0..many {
        let mut text: Vec<u8> = (0..1 + sink.rng.below(14)).flat_map(|_| sink.rng.pick(PIECES).to_vec()).collect();
        if sink.rng.percent(20) {
            text = mutated(&mut sink.rng, &text);
        }
        let (a, b) = any_span(&mut sink.rng, text.len());
        emit(sink, &text, a, b);
    }
}

/// An opening parenthesis put in, and in place of a byte, at each place; another credit behind.
fn parenthesis_everywhere(sink: &mut Sink, good: &str, whole: &mut dyn FnMut(&mut Sink, &[u8])) {
    for at in 0..good.len() {
        for behind in [at, at + 1] {
            let text = format!("{}({}(Revised by C{CLOSE}", &good[..at], &good[behind..]);
            whole(sink, text.as_bytes());
        }
    }
}

/// Two and three openings, what may stand between them, and a close behind the last.
fn nested(sink: &mut Sink, whole: &mut dyn FnMut(&mut Sink, &[u8])) {
    for first in OPENINGS {
        for second in OPENINGS.iter().chain(NOTICES) {
            for x in BETWEEN {
                for y in BETWEEN {
                    whole(sink, format!("{first}{x}{second}{y}{CLOSE}").as_bytes());
                    whole(sink, format!("{first}{x}{second}{y}(Contributed by Cy{CLOSE}").as_bytes());
                }
            }
        }
    }
}

/// Long fields with a parenthesis first, in the middle and last, and many openings before one close.
fn long(plan: &Plan, sink: &mut Sink, whole: &mut dyn FnMut(&mut Sink, &[u8])) {
    let most = plan.either(4_096, 60_000);
    let field = "Ann B ".repeat(most / 6);
    for author in [format!("({field}"), format!("{field}({field}"), format!("{field}("), field.clone()] {
        // the middle one has the field twice, and must fit a payload
        let author = &author[..author.len().min(65_000)];
        whole(sink, format!("(Contributed by {author}{CLOSE}").as_bytes());
        whole(sink, format!("(Contributed by {author}(Revised by C{CLOSE}").as_bytes());
    }
    for open in ["(Contributed by ", "(Contributed by A ", "(Revised by (", "("] {
        let text = open.repeat(most / open.len());
        whole(sink, format!("{text}{CLOSE}").as_bytes());
        whole(sink, format!("{text}(Contributed by C{CLOSE}").as_bytes());
    }
}
