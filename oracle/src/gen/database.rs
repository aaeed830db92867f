//! Every comment of a Metamath database with its real symbols and labels, as it is and mutated.
use super::sink::{span_case, Sink};
use super::texts::{any_span, mutated};
use super::Plan;
use crate::cases::{Case, CHECK_FLAGS, MOST_BYTES};
use crate::readings::Reading;
use std::collections::BTreeSet;

/// What the streams need of a database.
#[derive(Default)]
pub struct Mm {
    /// Each comment with its `$(` and `$)`.
    comments: Vec<Vec<u8>>,
    symbols: BTreeSet<Vec<u8>>,
    labels: BTreeSet<Vec<u8>>,
    tags: BTreeSet<Vec<u8>>,
}

impl Mm {
    /// Reads a database's text. Bibliography names are the tags that its comments use most plainly: `[Name]`.
    pub fn read(text: &[u8]) -> Self {
        let mut mm = Self::default();
        let mut tokens = Tokens { text, at: 0 };
        // the word before, which is the label at $a, $p, $e and $f
        let mut last: &[u8] = b"";
        let mut declaring = false;
        while let Some((start, token)) = tokens.next() {
            if token == b"$(" {
                while tokens.next().is_some_and(|t| t.1 != b"$)") {}
                mm.comments.push(text[start..tokens.at].to_vec());
                continue;
            }
            match token {
                b"$c" | b"$v" => declaring = true,
                b"$." => declaring = false,
                b"$a" | b"$p" | b"$e" | b"$f" => {
                    mm.labels.insert(last.to_vec());
                }
                _ if declaring => {
                    mm.symbols.insert(token.to_vec());
                }
                _ => {}
            }
            last = token;
        }
        mm.comments.retain(|c| c.len() <= MOST_BYTES as usize);
        for comment in &mm.comments {
            for part in comment.split(|&c| c == b'[').skip(1) {
                let name: Vec<u8> = part.iter().copied().take_while(|c| c.is_ascii_alphanumeric()).collect();
                // every fourth name is left out, so that some tags are not found
                if part.get(name.len()) == Some(&b']') && name.len() % 4 != 0 {
                    mm.tags.insert(name);
                }
            }
        }
        mm
    }
}

/// Words parted by blanks, with their places.
struct Tokens<'a> {
    text: &'a [u8],
    at: usize,
}

impl<'a> Tokens<'a> {
    fn next(&mut self) -> Option<(usize, &'a [u8])> {
        let blank = |c: &u8| c.is_ascii_whitespace();
        let start = self.at + self.text[self.at..].iter().position(|c| !blank(c))?;
        let length = self.text[start..].iter().position(blank).unwrap_or(self.text.len() - start);
        self.at = start + length;
        Some((start, &self.text[start..self.at]))
    }
}

/// What a stream makes of a buffer and span.
type Emit = fn(&mut Sink, &[u8], usize, usize);

/// Each comment between its marks; the marks stand in the buffer, outside the span.
fn as_they_are(plan: &Plan, sink: &mut Sink, emit: Emit) {
    for comment in plan.mm.map_or(&[][..], |mm| &mm.comments) {
        let b = comment.len().saturating_sub(2).max(2);
        emit(sink, comment, 2, b);
    }
}

/// Comments with a few bytes changed: once in the short run (one of so many), several times in the long one.
fn with_changes(plan: &Plan, sink: &mut Sink, one_of: usize, emit: Emit) {
    let comments = plan.mm.map_or(&[][..], |mm| &mm.comments);
    for comment in comments.iter().step_by(plan.either(one_of, 1)) {
        for _ in 0..plan.either(1, 5) {
            let text = mutated(&mut sink.rng, comment);
            if text.len() <= MOST_BYTES as usize {
                let (a, b) = any_span(&mut sink.rng, text.len());
                emit(sink, &text, a, b);
            }
        }
    }
}

/// Comments behind some of those before them, all in one buffer, so that lines stand before the span: in the short run one of so many.
fn behind_others(plan: &Plan, sink: &mut Sink, one_of: usize, emit: Emit) {
    let comments = plan.mm.map_or(&[][..], |mm| &mm.comments);
    for last in (0..comments.len()).step_by(plan.either(one_of, 1)) {
        let first = last.saturating_sub(sink.rng.below(40));
        let buf = comments[first..=last].join(&b'\n');
        if buf.len() <= MOST_BYTES as usize {
            let a = buf.len() - comments[last].len() + 2;
            emit(sink, &buf, a, (buf.len() - 2).max(a));
        }
    }
}

fn event(sink: &mut Sink, buf: &[u8], a: usize, b: usize) {
    sink.put_roomed(span_case(b'E', buf, a, b));
}

fn credit(sink: &mut Sink, buf: &[u8], a: usize, b: usize) {
    sink.put_roomed(span_case(b'P', buf, a, b));
}

fn credit_steps(sink: &mut Sink, buf: &[u8], a: usize, b: usize) {
    let c = [1, 2, 100][sink.rng.below(3)];
    sink.put(&Case { c, ..span_case(b'Q', buf, a, b) });
}

/// The check by both flags.
fn check(sink: &mut Sink, buf: &[u8], a: usize, b: usize) {
    for flag in CHECK_FLAGS {
        sink.put_roomed(Case { flag, ..span_case(b'C', buf, a, b) });
    }
}

/// The check of a comment that may hold a tag.
fn check_tags(sink: &mut Sink, buf: &[u8], a: usize, b: usize) {
    if buf.contains(&b'[') {
        sink.put_roomed(span_case(b'C', buf, a, b));
    }
}

fn link(sink: &mut Sink, buf: &[u8], a: usize, b: usize) {
    sink.put_roomed(span_case(b'H', buf, a, b));
}

fn plain(sink: &mut Sink, buf: &[u8], a: usize, b: usize) {
    let flag = sink.rng.below(4) as u8;
    sink.put_roomed(Case { flag, ..span_case(b'U', buf, a, b) });
}

fn flag(sink: &mut Sink, buf: &[u8], _: usize, _: usize) {
    sink.put(&Case { op: b'F', payload: buf.to_vec(), ..Case::default() });
}

pub fn events(plan: &Plan, sink: &mut Sink) {
    as_they_are(plan, sink, event);
}

pub fn events_mutated(plan: &Plan, sink: &mut Sink) {
    with_changes(plan, sink, 4, event);
}

pub fn events_behind(plan: &Plan, sink: &mut Sink) {
    behind_others(plan, sink, 16, event);
}

pub fn parentheticals(plan: &Plan, sink: &mut Sink) {
    as_they_are(plan, sink, credit);
}

pub fn parentheticals_mutated(plan: &Plan, sink: &mut Sink) {
    with_changes(plan, sink, 4, credit);
}

pub fn parentheticals_stepped(plan: &Plan, sink: &mut Sink) {
    as_they_are(plan, sink, credit_steps);
}

pub fn flags(plan: &Plan, sink: &mut Sink) {
    as_they_are(plan, sink, flag);
}

pub fn unescaping(plan: &Plan, sink: &mut Sink) {
    as_they_are(plan, sink, plain);
}

fn lend_all(plan: &Plan, sink: &mut Sink) {
    if let Some(mm) = plan.mm {
        sink.lend(1, &mm.symbols.iter().collect::<Vec<_>>());
        lend_labels(plan, sink);
        sink.lend(3, &mm.tags.iter().collect::<Vec<_>>());
    }
}

/// All labels. In the strict reading's short run one of sixteen: each call checks the table, in either reading alike, and that
/// takes far more than the comment.
fn lend_labels(plan: &Plan, sink: &mut Sink) {
    let one_of = if sink.reading == Reading::Strict { plan.either(16, 1) } else { 1 };
    if let Some(mm) = plan.mm {
        sink.lend(2, &mm.labels.iter().step_by(one_of).collect::<Vec<_>>());
    }
}

/// Each comment by both flags. Those that may hold a tag once more, without a bibliography: each call checks all labels.
pub fn checks(plan: &Plan, sink: &mut Sink) {
    lend_all(plan, sink);
    as_they_are(plan, sink, check);
    sink.lend_no_bibliography();
    as_they_are(plan, sink, check_tags);
}

/// The same of comments with a few bytes changed, for the checks without a bibliography changed anew.
pub fn checks_mutated(plan: &Plan, sink: &mut Sink) {
    lend_all(plan, sink);
    with_changes(plan, sink, 4, check);
    sink.lend_no_bibliography();
    with_changes(plan, sink, 4, check_tags);
}

/// The same of comments behind others: few in the short run, since each call checks all labels.
pub fn checks_behind(plan: &Plan, sink: &mut Sink) {
    lend_all(plan, sink);
    behind_others(plan, sink, 64, check);
    sink.lend_no_bibliography();
    behind_others(plan, sink, 64, check_tags);
}

pub fn links(plan: &Plan, sink: &mut Sink) {
    lend_labels(plan, sink);
    as_they_are(plan, sink, link);
}

/// Fewer in the short run than of the other ops: each call checks the whole table, and asks little else.
pub fn links_mutated(plan: &Plan, sink: &mut Sink) {
    lend_labels(plan, sink);
    with_changes(plan, sink, 16, link);
}

/// Each label, as it is and changed.
pub fn labels(plan: &Plan, sink: &mut Sink) {
    let Some(mm) = plan.mm else { return };
    for label in &mm.labels {
        sink.put(&Case { op: b'L', payload: label.clone(), ..Case::default() });
        let payload = mutated(&mut sink.rng, label);
        sink.put(&Case { op: b'L', payload, ..Case::default() });
    }
}

/// Each symbol and tag looked up in its table, as it is and changed; of the labels one in twenty in the short run, since a lookup checks its whole table.
pub fn lookups(plan: &Plan, sink: &mut Sink) {
    let Some(mm) = plan.mm else { return };
    lend_all(plan, sink);
    for (flag, names, step) in [(1, &mm.symbols, 1), (2, &mm.labels, plan.either(20, 1)), (3, &mm.tags, 1)] {
        for name in names.iter().step_by(step) {
            sink.put(&Case { op: b'N', flag, payload: name.clone(), ..Case::default() });
            let payload = mutated(&mut sink.rng, name);
            sink.put(&Case { op: b'N', flag, payload, ..Case::default() });
        }
    }
}
