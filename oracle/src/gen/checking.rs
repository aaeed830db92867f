//! Cases for the comment check against lent tables (ops T and C).
use super::comments;
use super::names::{any_table, name};
use super::random::Rng;
use super::sink::{span_case, Sink};
use super::texts::{any_span, each_sequence, each_span, each_text, mutated};
use super::Plan;
use crate::cases::{Case, CHECK_FLAGS, NO_TAG_LOOKUP};
use crate::lines::LINED_WIDTH;

const SYMBOLS: &[&str] = &["", "a", "`", "a`b", "ph", "->", "(", ")", "x", "_a"];
const LABELS: &[&str] = &["a", "ax-1", "mp2", "x[A]", "a[b", "a`", "idi", "aa", "1__2", "a~"];
const TAGS: &[&str] = &["", "a", "A", "TakeutiZaring", "a``b"];

fn lend_all(sink: &mut Sink) {
    sink.lend(1, SYMBOLS);
    sink.lend(2, LABELS);
    sink.lend(3, TAGS);
}

/// A check of a span.
fn check(flag: u8, buf: &[u8], a: usize, b: usize) -> Case {
    Case { flag, ..span_case(b'C', buf, a, b) }
}

/// Every text with a bibliography, and shorter ones without one and by the named choice.
pub fn exhaustive(plan: &Plan, sink: &mut Sink) {
    for flag in CHECK_FLAGS {
        sink.put_roomed(check(flag, b"` a ` ~ b [c]", 0, 13));
    }
    lend_all(sink);
    every_text(plan, sink, plan.either(-1, 0), 0);
    every_text(plan, sink, -2, NO_TAG_LOOKUP);
    sink.lend_no_bibliography();
    for flag in CHECK_FLAGS {
        every_text(plan, sink, -2, flag);
    }
}

/// Every text over the alphabets, `more` pieces longer than for the events (or shorter), and what a neighbour past the span changes.
fn every_text(plan: &Plan, sink: &mut Sink, more: isize, flag: u8) {
    each_text(more, &mut |text, a, b| sink.put_roomed(check(flag, text, a, b)));
    // HTML marks in any case, in text, labels and tags
    let html: &[&[u8]] = &[b"<html>", b"</HTML>", b"<HtMl>", b"<HTML>", b"~ ", b"[", b"]", b"a", b" ", b"<html"];
    each_sequence(html, plan.either(4, 5), &mut |text| sink.put_roomed(check(flag, text, 0, text.len())));
    // tags, found in the bibliography and not, beside each mark
    let tags: &[&[u8]] = &[b"[a]", b"[b]", b"[]", b"[", b"]", b"`", b"~ ", b"_", b" ", b"<HTML>"];
    each_sequence(tags, plan.either(4, 5), &mut |text| sink.put_roomed(check(flag, text, 0, text.len())));
    // each escape beside each mark, in every span
    let escapes: &[&[u8]] = &[b"`", b"~", b"[", b"_", b"]", b" ", b"a"];
    each_sequence(escapes, plan.either(4, 5), &mut |text| {
        each_span(text.len(), &mut |a, b| sink.put_roomed(check(flag, text, a, b)));
    });
    for byte in 0..=255u8 {
        for template in ["a`?a `", "a` a?`", "?` a `", "` a `?", "?~ a", "~?a", "~ a?", "[?]", "~ a?b ", "<htm?>", "?"]
        {
            let text: Vec<u8> = template.bytes().map(|c| if c == b'?' { byte } else { c }).collect();
            sink.put_roomed(check(flag, &text, 0, text.len()));
        }
    }
}

/// Comments with structure, with and without a bibliography, one of three by the named choice, with every room now and then.
pub fn random(plan: &Plan, sink: &mut Sink) {
    lend_all(sink);
    for round in 0..plan.either(60_000, 2_000_000) {
        if round % 1000 == 999 {
            if sink.rng.percent(50) {
                sink.lend(3, TAGS);
            } else {
                sink.lend_no_bibliography();
            }
        }
        let mut text = comments::comment(&mut sink.rng);
        if sink.rng.percent(30) {
            text = mutated(&mut sink.rng, &text);
        }
        let (a, b) = any_span(&mut sink.rng, text.len());
        let flag = if sink.rng.percent(33) { NO_TAG_LOOKUP } else { 0 };
        let case = check(flag, &text, a, b);
        if round % 50 == 0 {
            sink.put_every_room(case);
        } else {
            sink.put_roomed(case);
        }
    }
}

/// Random tables of each number, and comments put together from their names and from names beside them, by both flags.
pub fn tables(plan: &Plan, sink: &mut Sink) {
    let mut names: [Vec<Vec<u8>>; 3] = Default::default();
    for _ in 0..plan.either(5_000, 100_000) {
        let number = sink.rng.below(3);
        names[number] = (0..sink.rng.below(20)).map(|_| name(&mut sink.rng, 6)).collect();
        sink.lend(number as u8 + 1, &names[number]);
        if sink.rng.percent(15) {
            names[2].clear();
            sink.lend_no_bibliography();
        }
        for _ in 0..4 {
            let text = of_names(&mut sink.rng, &names);
            for flag in CHECK_FLAGS {
                sink.put_roomed(check(flag, &text, 0, text.len()));
            }
        }
    }
}

/// Tokens, labels and tags: mostly of their own table, now and then of another, changed, or new.
fn of_names(rng: &mut Rng, names: &[Vec<Vec<u8>>; 3]) -> Vec<u8> {
    let mut text = vec![];
    for _ in 0..1 + rng.below(6) {
        let kind = rng.below(3);
        let table = &names[if rng.percent(80) { kind } else { rng.below(3) }];
        let new = table.is_empty() || rng.percent(15);
        let mut word = if new { name(rng, 6) } else { table[rng.below(table.len())].clone() };
        if rng.percent(15) {
            word = mutated(rng, &word);
        }
        let (before, behind) = [(&b"` "[..], &b" ` "[..]), (b"~ ", b" "), (b"[", b"] ")][kind];
        text.extend_from_slice(before);
        text.extend_from_slice(&word);
        text.extend_from_slice(behind);
    }
    text
}

/// Malformed tables of each number, several at once, with spans that are refused or not, by both flags.
pub fn malformed(plan: &Plan, sink: &mut Sink) {
    for _ in 0..plan.either(12_000, 300_000) {
        let number = 1 + sink.rng.below(3) as u8;
        let lent = any_table(&mut sink.rng, number);
        sink.put(&lent);
        match sink.rng.below(6) {
            0 => sink.lend_no_bibliography(),
            1 => sink.lend(1, SYMBOLS),
            2 => sink.lend(2, LABELS),
            3 => sink.lend(3, TAGS),
            _ => {}
        }
        let text = comments::comment(&mut sink.rng);
        let (a, b) = any_span(&mut sink.rng, text.len());
        let room = [0, LINED_WIDTH, 16 * LINED_WIDTH][sink.rng.below(3)];
        for flag in CHECK_FLAGS {
            sink.put(&Case { room, ..check(flag, &text, a, b) });
        }
    }
}
