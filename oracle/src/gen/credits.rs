//! Cases for parentheticals and flags (ops P, Q and F): words around the patterns, and changed credits.
use super::comments;
use super::random::Rng;
use super::sink::{span_case, Sink};
use super::texts::{any_span, each_sequence, each_span, mutated};
use super::Plan;
use crate::cases::Case;

/// Credits and notices that match.
const GOOD: &[&str] = &[
    "(Contributed by A, 1-Jan-2020.)",
    "(Revised by Bo B,\n 12-Feb-1999.)",
    "(Proof \r\n shortened  by C,  3-Mar-0000.)",
    "(Proof modification is discouraged.)",
    "(New\nusage is  discouraged.)",
];

/// Words that the patterns are made of, and words that break them.
const WORDS: &[&[u8]] = &[
    b"(Contributed",
    b"(Revised",
    b"(Proof",
    b"(New",
    b" ",
    b"\n",
    b"shortened",
    b"by",
    b"usage",
    b"modification",
    b"is",
    b"discouraged.)",
    b"Ann",
    b",",
    b"1-Jan-2020",
    b"31-Dec-0007",
    b".)",
    b"(",
    b")",
    b"\t",
    b"\xc3\xa9",
    b"\xff",
    b"-",
    b"1",
];

/// Parts of a credit, each in forms that fit and forms that do not.
const PARTS: &[&[&[u8]]] = &[
    &[
        b"(Contributed",
        b"(Revised",
        b"(Proof shortened",
        b"(Proof\r\nshortened",
        b"((Revised",
        b"(contributed",
        b"(Proofshortened",
    ],
    &[b" ", b"\n", b" \r\n ", b"", b"\t", b"\x0c"],
    &[b"by", b"By", b"by by", b""],
    &[b" ", b"  ", b"\n\n", b"", b"\t", b" \t"],
    &[
        b"A",
        b"",
        b" ",
        b"Ann (Revised by Bob",
        b"(Contributed by X",
        b"\xc3\xa9",
        b"\xff",
        b"\xe2\x82",
        b"\xf0\x9f\x98\x80",
        b"\xed\xa0\x80",
        b"\xc0\x80",
        b"\xf4\x90\x80\x80",
        b"A)B",
        b"\n",
        b" A ",
        b"\t",
    ],
    &[b",", b"", b",,", b" ,"],
    &[b" ", b"\n  ", b"", b"\t"],
    &[
        b"1-Jan-2020",
        b"12-Feb-2020",
        b"123-Feb-2020",
        b"1-jan-2020",
        b"1-JAN-2020",
        b"1-Jan-202",
        b"1 Jan 2020",
        b"+1-Jan-2020",
        b"1-Xyz-0000",
    ],
    &[b".)", b".", b")", b" .)", b".]"],
];

/// What a stream makes of a buffer and span.
pub type Emit = fn(&mut Sink, &[u8], usize, usize);

pub fn listed(sink: &mut Sink, buf: &[u8], a: usize, b: usize) {
    sink.put_roomed(span_case(b'P', buf, a, b));
}

pub fn stepped(sink: &mut Sink, buf: &[u8], a: usize, b: usize) {
    let c = [1, 1, 2, 3, 1000][sink.rng.below(5)];
    sink.put(&Case { c, ..span_case(b'Q', buf, a, b) });
}

fn flagged(sink: &mut Sink, buf: &[u8], a: usize, b: usize) {
    sink.put(&Case { op: b'F', payload: buf.get(a..b).unwrap_or(buf).to_vec(), ..Case::default() });
}

pub fn words_listed(plan: &Plan, sink: &mut Sink) {
    words(plan, sink, listed, plan.either(60_000, 2_000_000));
}

pub fn words_stepped(plan: &Plan, sink: &mut Sink) {
    words(plan, sink, stepped, plan.either(20_000, 300_000));
}

pub fn words_flagged(plan: &Plan, sink: &mut Sink) {
    words(plan, sink, flagged, plan.either(20_000, 300_000));
}

pub fn mutated_listed(plan: &Plan, sink: &mut Sink) {
    one_change(sink, listed, plan.either(1, 1));
    every_span(sink, listed);
}

pub fn mutated_stepped(plan: &Plan, sink: &mut Sink) {
    one_change(sink, stepped, plan.either(5, 1));
    every_span(sink, stepped);
}

pub fn mutated_flagged(plan: &Plan, sink: &mut Sink) {
    one_change(sink, flagged, plan.either(5, 1));
    every_span(sink, flagged);
}

/// Comments with credits among other text, and spans that cut them.
pub fn random_listed(plan: &Plan, sink: &mut Sink) {
    for _ in 0..plan.either(20_000, 500_000) {
        let mut text = vec![];
        for _ in 0..1 + sink.rng.below(4) {
            text.extend(comments::comment(&mut sink.rng));
            text.extend_from_slice(sink.rng.pick(comments::CREDITS).as_bytes());
        }
        if sink.rng.percent(60) {
            text = mutated(&mut sink.rng, &text);
        }
        let (a, b) = any_span(&mut sink.rng, text.len());
        listed(sink, &text, a, b);
    }
}

/// Short sequences of words, all of them, then credits put together from fitting and unfitting parts.
fn words(plan: &Plan, sink: &mut Sink, emit: Emit, many: usize) {
    each_sequence(WORDS, plan.either(3, 4), &mut |text| emit(sink, text, 0, text.len()));
    for _ in 0..many {
        let mut text = vec![];
        for _ in 0..1 + sink.rng.below(3) {
            text.extend(credit_of_parts(&mut sink.rng));
        }
        let (a, b) = any_span(&mut sink.rng, text.len());
        emit(sink, &text, a, b);
    }
    for _ in 0..many {
        let text: Vec<u8> = (0..sink.rng.below(14)).flat_map(|_| sink.rng.pick(WORDS).to_vec()).collect();
        emit(sink, &text, 0, text.len());
    }
}

/// A credit whose parts mostly fit.
fn credit_of_parts(rng: &mut Rng) -> Vec<u8> {
    let mut text = vec![];
    for forms in PARTS {
        let form = if rng.percent(80) { rng.below(2) } else { rng.below(forms.len()) };
        // the second form of a few parts is empty or short: the first is the one that fits
        let form = if forms[form].is_empty() && rng.percent(70) { 0 } else { form };
        text.extend_from_slice(forms[form]);
    }
    text
}

/// Every good text with one byte left out, one put in, and one replaced by every `step`th byte there is.
fn one_change(sink: &mut Sink, emit: Emit, step: usize) {
    for good in GOOD {
        let good = good.as_bytes();
        for at in 0..good.len() {
            let without = [&good[..at], &good[at + 1..]].concat();
            emit(sink, &without, 0, without.len());
            for byte in (0..=255u8).step_by(step) {
                let mut other = good.to_vec();
                other[at] = byte;
                emit(sink, &other, 0, other.len());
            }
            for byte in [b' ', b'\t', b'(', b')', b',', b'.', b'0', b'a', b'A', b'-', 0xff] {
                let more = [&good[..at], &[byte], &good[at..]].concat();
                emit(sink, &more, 0, more.len());
            }
        }
    }
}

/// Every span of two good texts side by side, and refused spans.
fn every_span(sink: &mut Sink, emit: Emit) {
    for pair in GOOD.windows(2) {
        let text = [b"x", pair[0].as_bytes(), pair[1].as_bytes()].concat();
        each_span(text.len(), &mut |a, b| emit(sink, &text, a, b));
        for (a, b) in [(1, 0), (0, text.len() + 1), (text.len() + 1, text.len() + 1), (usize::MAX >> 33, 0)] {
            emit(sink, &text, a, b);
        }
    }
}
