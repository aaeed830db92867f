//! Cases for the links of a comment: its labels found in a lent table (ops T and H).
use super::comments::{self, LABELS, URLS};
use super::names::any_table;
use super::random::Rng;
use super::sink::{span_case, Sink};
use super::texts::{any_span, each_sequence, each_span, each_text, mutated};
use super::Plan;
use crate::cases::Case;

/// What a label's text is made of in the exhaustive stream: escapes, a bracket, a Url's front, blanks that are text or not.
const PIECES: &[&[u8]] = &[b"a", b"[", b"]", b"`", b"~", b"mm", b"\t", b" "];

/// Short labels over the pieces, with the empty one first. Every fifth is left out, so that some are not found.
fn lend_short(sink: &mut Sink) {
    let mut names: Vec<Vec<u8>> = vec![];
    each_sequence(PIECES, 3, &mut |text| names.push(text.to_vec()));
    names.sort();
    names.dedup();
    let kept: Vec<Vec<u8>> = names.into_iter().enumerate().filter(|(i, _)| i % 5 != 3).map(|(_, n)| n).collect();
    sink.lend(2, &kept);
}

/// Every text over the pieces, alone and behind a tilde, whole and in every span; the alphabets of the events; every byte.
pub fn exhaustive(plan: &Plan, sink: &mut Sink) {
    // nothing lent yet
    sink.put_roomed(span_case(b'H', b"~ a ~", 0, 5));
    lend_short(sink);
    each_sequence(PIECES, plan.either(4, 6), &mut |text| {
        let label = [b"~ ", text].concat();
        sink.put_roomed(span_case(b'H', &label, 0, label.len()));
    });
    each_sequence(PIECES, plan.either(5, 6), &mut |text| sink.put_roomed(span_case(b'H', text, 0, text.len())));
    each_sequence(PIECES, plan.either(3, 5), &mut |text| {
        let label = [b"~", text].concat();
        each_span(label.len(), &mut |a, b| sink.put_roomed(span_case(b'H', &label, a, b)));
    });
    each_text(plan.either(-2, -1), &mut |text, a, b| sink.put_roomed(span_case(b'H', text, a, b)));
    every_byte(sink);
}

/// Each byte in, before and behind a label, against names of one and two bytes.
fn every_byte(sink: &mut Sink) {
    let names: Vec<Vec<u8>> = (0..=255u8).flat_map(|byte| [vec![byte], vec![b'a', byte], vec![byte, b'a']]).collect();
    sink.lend(2, &names);
    for byte in 0..=255u8 {
        for template in ["~ ?", "~ a?", "~ ?a", "~ ??", "~ a??", "~ a???", "~?a", "?~ a", "~ a?~ a", "~ a ?"] {
            let text: Vec<u8> = template.bytes().map(|c| if c == b'?' { byte } else { c }).collect();
            sink.put_roomed(span_case(b'H', &text, 0, text.len()));
        }
    }
}

/// Comments with structure, against some of the names that stand in them as labels and Urls.
pub fn random(plan: &Plan, sink: &mut Sink) {
    let names: Vec<&str> = [LABELS, URLS, &["", "ax-1.", "mp2,", "x[A", "the"]].concat();
    for round in 0..plan.either(40_000, 1_000_000) {
        if round % 200 == 0 {
            // about two names of three: entries move, and some labels are not found
            let some: Vec<&str> = names.iter().copied().filter(|_| sink.rng.percent(67)).collect();
            sink.lend(2, &some);
        }
        let mut text = comments::comment(&mut sink.rng);
        if sink.rng.percent(30) {
            text = mutated(&mut sink.rng, &text);
        }
        let (a, b) = any_span(&mut sink.rng, text.len());
        let case = span_case(b'H', &text, a, b);
        if round % 50 == 0 {
            sink.put_every_room(case);
        } else {
            sink.put_roomed(case);
        }
    }
}

/// A name with escapes in it, now and then one that is a Url behind a tilde.
fn label_name(rng: &mut Rng) -> Vec<u8> {
    let front = if rng.percent(10) { rng.pick(&["mm", "http://", "https://"]) } else { "" };
    let rest = (0..1 + rng.below(5)).map(|_| b"aab[`~]._\xff"[rng.below(10)]);
    front.bytes().chain(rest).collect()
}

/// A name as a label: escapes doubled, now and then lone, tripled or doubled twice.
fn escaped(rng: &mut Rng, name: &[u8]) -> Vec<u8> {
    let mut text = vec![];
    for &byte in name {
        let times = match byte {
            b'`' | b'[' | b'~' => [2, 2, 2, 2, 2, 1, 3, 4][rng.below(8)],
            _ => 1,
        };
        text.extend(std::iter::repeat(byte).take(times));
    }
    text
}

/// Random tables of labels, half of them with the empty name, and comments put together from their names.
pub fn tables(plan: &Plan, sink: &mut Sink) {
    for round in 0..plan.either(6_000, 100_000) {
        let size = if round % 50 == 0 { 200 } else { sink.rng.below(20) };
        let mut names: Vec<Vec<u8>> = (0..size).map(|_| label_name(&mut sink.rng)).collect();
        if sink.rng.percent(50) {
            names.push(vec![]);
        }
        sink.lend(2, &names);
        for _ in 0..5 {
            let text = of_names(&mut sink.rng, &names);
            sink.put_roomed(span_case(b'H', &text, 0, text.len()));
        }
        if round % 20 == 0 {
            let text = of_names(&mut sink.rng, &names);
            sink.put_every_room(span_case(b'H', &text, 0, text.len()));
        }
    }
}

/// Labels, mostly of the table, now and then changed or new, with what may end them behind.
fn of_names(rng: &mut Rng, names: &[Vec<u8>]) -> Vec<u8> {
    let mut text = vec![];
    for _ in 0..1 + rng.below(6) {
        let new = names.is_empty() || rng.percent(15);
        let name = if new { label_name(rng) } else { names[rng.below(names.len())].clone() };
        let mut label = escaped(rng, &name);
        if rng.percent(10) {
            label = mutated(rng, &label);
        }
        text.extend_from_slice(rng.pick(&["~ ", "~ ", "~", "~\n", "( ~ ", "x~ "]).as_bytes());
        text.extend(label);
        text.extend_from_slice(
            rng.pick(&[" ", " ", " ", "\n", " . ", "[A] ", "` a ` ", "<HTML>", "</HTML>"]).as_bytes(),
        );
    }
    // where the last label is empty, the span may end behind its tilde
    if rng.percent(20) {
        text.push(b'~');
    }
    text
}

/// Malformed labels, and malformed symbols and bibliographies, which are not looked at; spans that are refused or not.
pub fn malformed(plan: &Plan, sink: &mut Sink) {
    for _ in 0..plan.either(16_000, 300_000) {
        let number = [2, 2, 2, 1, 3][sink.rng.below(5)];
        let lent = any_table(&mut sink.rng, number);
        sink.put(&lent);
        match sink.rng.below(6) {
            0 | 1 => sink.lend(2, LABELS),
            2 => sink.lend_no_bibliography(),
            _ => {}
        }
        let text = comments::comment(&mut sink.rng);
        let (a, b) = any_span(&mut sink.rng, text.len());
        let room = [0, 3, 64][sink.rng.below(3)];
        sink.put(&Case { room, ..span_case(b'H', &text, a, b) });
    }
}
