//! Cases for single steps from any state (op S), and forged states for it and for op V.
use super::comments;
use super::random::Rng;
use super::sink::Sink;
use super::texts::{each_sequence, mutated, ALPHABETS};
use super::Plan;
use crate::cases::Case;
use crate::states::State;

/// Ten state words as bytes.
pub fn state_bytes(words: [u32; 10]) -> Vec<u8> {
    words.iter().flat_map(|w| w.to_le_bytes()).collect()
}

pub fn steps(words: [u32; 10], buf: &[u8], c: u32) -> Case {
    Case { op: b'S', c, payload: [&state_bytes(words)[..], buf].concat(), ..Case::default() }
}

/// A state by chance for a buffer of this length: mostly one that fits.
pub fn any_state(rng: &mut Rng, length: usize) -> [u32; 10] {
    let place = |rng: &mut Rng, most: usize| rng.below(most + 1) as u32;
    let mut end = if rng.percent(70) { length as u32 } else { place(rng, length) };
    let mut pos = place(rng, end as usize);
    match rng.below(20) {
        0 => end = length as u32 + 1 + place(rng, 2),
        1 => pos = end + 1 + place(rng, 2),
        2 => (end, pos) = (rng.word() as u32, rng.word() as u32),
        _ => {}
    }
    let waiting = if rng.percent(25) { any_event(rng, length) } else { [0; 4] };
    let italic = if rng.percent(50) { u32::MAX } else { place(rng, length + 1) };
    let subscript = if rng.percent(40) { 0 } else { place(rng, length + 1) };
    let (math, html) = (u32::from(rng.percent(35)), u32::from(rng.percent(35)));
    [end, pos, math, html, waiting[0], waiting[1], waiting[2], waiting[3], italic, subscript]
}

/// An event record of any kind, with any numbers that its kind allows.
fn any_event(rng: &mut Rng, length: usize) -> [u32; 4] {
    let number = |rng: &mut Rng| if rng.percent(90) { rng.below(length + 2) as u32 } else { rng.word() as u32 };
    let kind = 1 + rng.below(14) as u32;
    let (x, y, z) = (number(rng), number(rng), number(rng));
    match kind {
        1 | 5 | 14 => [kind, x, x, y],
        6 | 7 => [kind, x, y, z],
        _ => [kind, x, x, x],
    }
}

/// Short buffers in every state whose places lie in them or next to them.
pub fn exhaustive(plan: &Plan, sink: &mut Sink) {
    let pieces: &[&[u8]] = &[b"_", b"a", b" ", b"`", b".", b"\n", b"~", b"["];
    each_sequence(pieces, plan.either(3, 4), &mut |text| {
        let length = text.len() as u32;
        for pos in 0..=length {
            for mode in 0..4 {
                for italic in (pos..=length).chain([u32::MAX]) {
                    for subscript in 0..=length + 1 {
                        let words = [length, pos, mode & 1, mode >> 1, 0, 0, 0, 0, italic, subscript];
                        sink.put(&steps(words, text, 100));
                    }
                }
            }
        }
    });
    // every end, and positions past it
    let text = b"a_b `c` ~ d";
    for end in 0..=text.len() as u32 + 2 {
        for pos in 0..=end + 2 {
            sink.put(&steps([end, pos, 0, 0, 0, 0, 0, 0, u32::MAX, 0], text, 100));
            sink.put(&steps([end, pos, 0, 0, 0, 0, 0, 0, u32::MAX, 0], text, 0));
        }
    }
}

/// Every text of up to five marks, from a fresh state at every start: one step, and all steps.
pub fn starts(_plan: &Plan, sink: &mut Sink) {
    each_sequence(ALPHABETS[0].pieces, 5, &mut |text| {
        let length = text.len() as u32;
        for start in 0..=length {
            let fresh = [length, start, 0, 0, 0, 0, 0, 0, u32::MAX, 0];
            sink.put(&steps(fresh, text, 1));
            sink.put(&steps(fresh, text, 100));
        }
    });
}

/// Comments in states by chance.
pub fn random(plan: &Plan, sink: &mut Sink) {
    for _ in 0..plan.either(60_000, 2_000_000) {
        let mut text = comments::comment(&mut sink.rng);
        if sink.rng.percent(50) {
            text.truncate(1 + sink.rng.below(12));
            text = mutated(&mut sink.rng, &text);
        }
        let state = any_state(&mut sink.rng, text.len());
        let c = [0, 1, 1, 2, 3, 1000, u32::MAX][sink.rng.below(7)];
        sink.put(&steps(state, &text, c));
    }
}

/// Fresh starts read one step at a time, each step from the state that the last one left.
pub fn walks(plan: &Plan, sink: &mut Sink) {
    for _ in 0..plan.either(3_000, 60_000) {
        let text = comments::comment(&mut sink.rng);
        let start = sink.rng.below(text.len() + 1) as u32;
        let mut words = [text.len() as u32, start, 0, 0, 0, 0, 0, 0, u32::MAX, 0];
        loop {
            sink.put(&steps(words, &text, 1));
            let state = State::read(&state_bytes(words)).expect("a state");
            let mut parser = state.parser(sink.reading, &text);
            let ended = parser.next().is_none();
            words = state.after(&parser).words();
            if ended {
                break;
            }
        }
    }
}
