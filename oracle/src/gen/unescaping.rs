//! Cases for unescaping: of a span (U), and by a parser in any state (V).
use super::comments;
use super::sink::{span_case, Sink};
use super::stepping::{any_state, state_bytes};
use super::texts::{any_span, each_sequence, each_span};
use super::Plan;
use crate::cases::Case;

const ESCAPES: &[&[u8]] = &[b"`", b"[", b"~", b"_", b"a"];

/// Every text over the escapes, whole in each mode, and short ones in every span; every byte alone and doubled.
pub fn exhaustive(plan: &Plan, sink: &mut Sink) {
    each_sequence(ESCAPES, plan.either(6, 8), &mut |text| {
        for flag in 0..4 {
            sink.put_roomed(Case { flag, ..span_case(b'U', text, 0, text.len()) });
        }
    });
    each_sequence(ESCAPES, plan.either(4, 5), &mut |text| {
        each_span(text.len(), &mut |a, b| {
            for flag in 0..4 {
                sink.put_roomed(Case { flag, ..span_case(b'U', text, a, b) });
            }
        });
    });
    each_sequence(ESCAPES, 3, &mut |text| {
        for flag in 0..4 {
            sink.put_every_room(Case { flag, ..span_case(b'U', text, 0, text.len()) });
        }
    });
    for byte in 0..=255u8 {
        for text in [&[byte][..], &[byte, byte], &[byte, b'a', byte], &[byte, byte, byte]] {
            for flag in 0..4 {
                sink.put_roomed(Case { flag, ..span_case(b'U', text, 0, text.len()) });
            }
        }
    }
    for (a, b) in [(1, 0), (0, 4), (4, 4), (3, 4), (u32::MAX as usize, 0), (0, u32::MAX as usize), (3, 3)] {
        for flag in 0..4 {
            sink.put(&Case { flag, ..span_case(b'U', b"a~~", a, b) });
            sink.put(&Case { flag, room: 9, ..span_case(b'U', b"a~~", a, b) });
        }
    }
}

pub fn random(plan: &Plan, sink: &mut Sink) {
    for _ in 0..plan.either(20_000, 500_000) {
        let text = comments::comment(&mut sink.rng);
        let (a, b) = any_span(&mut sink.rng, text.len());
        let flag = sink.rng.below(4) as u8;
        sink.put_roomed(Case { flag, ..span_case(b'U', &text, a, b) });
    }
}

/// Forged states, and spans that fit neither the buffer nor the state's end.
pub fn forged(plan: &Plan, sink: &mut Sink) {
    each_sequence(&[b"`", b"[", b"_", b"a"], 3, &mut |text| {
        each_span(text.len() + 1, &mut |a, b| {
            for end in 0..=text.len() as u32 + 1 {
                for html in [0, 1] {
                    for flag in [0, 2, 3] {
                        let state = state_bytes([end, 0, 0, html, 0, 0, 0, 0, u32::MAX, 0]);
                        let payload = [&state[..], text].concat();
                        let case = Case { flag, payload, ..span_case(b'V', b"", a, b) };
                        sink.put_roomed(case);
                    }
                }
            }
        });
    });
    for _ in 0..plan.either(40_000, 500_000) {
        let text = comments::comment(&mut sink.rng);
        let state = any_state(&mut sink.rng, text.len());
        let (a, b) = any_span(&mut sink.rng, text.len());
        let flag = [0, 2, 3][sink.rng.below(3)];
        let payload = [&state_bytes(state)[..], &text].concat();
        sink.put_roomed(Case { flag, payload, ..span_case(b'V', b"", a, b) });
    }
}
