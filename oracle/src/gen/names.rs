//! Cases for labels (L), reserved names (R), and name tables and their lookup (T and N).
use super::random::Rng;
use super::sink::{table, Sink};
use super::texts::{each_sequence, mutated};
use super::Plan;
use crate::cases::Case;

fn bytes_case(op: u8, text: &[u8]) -> Case {
    Case { op, payload: text.to_vec(), ..Case::default() }
}

/// Every string of at most two bytes, strings over bytes at the edges of the rule, and longer ones with one byte wrong.
pub fn label_strings(plan: &Plan, sink: &mut Sink) {
    each_pair(sink, b'L');
    let edges: &[&[u8]] = &[b"a", b"Z", b"0", b".", b"-", b"_", b"/", b":", b"@", b"[", b"`", b"{", b" ", b"\x80"];
    each_sequence(edges, plan.either(3, 5), &mut |text| sink.put(&bytes_case(b'L', text)));
    for length in 1..=plan.either(24, 200) {
        let good = vec![b'x'; length];
        sink.put(&bytes_case(b'L', &good));
        for at in 0..length {
            for byte in [b',', b'/', b' ', b'_', 0, 0xff] {
                let mut text = good.clone();
                text[at] = byte;
                sink.put(&bytes_case(b'L', &text));
            }
        }
    }
}

/// Every reserved name in each case, with every byte replaced, put in or left out, and strings that come near.
pub fn reserved_strings(plan: &Plan, sink: &mut Sink) {
    each_pair(sink, b'R');
    for base in ["CON", "PRN", "AUX", "NUL", "COM", "LPT"] {
        // each way of writing the three letters
        for mask in 0..8 {
            let letters: Vec<u8> = base
                .bytes()
                .enumerate()
                .map(|(i, c)| if mask >> i & 1 == 1 { c.to_ascii_lowercase() } else { c })
                .collect();
            sink.put(&bytes_case(b'R', &letters));
            for byte in 0..=255u8 {
                sink.put(&bytes_case(b'R', &[&letters[..], &[byte]].concat()));
            }
        }
        for digit in b'0'..=b'9' {
            let name = [base.as_bytes(), &[digit]].concat();
            for byte in 0..=255u8 {
                sink.put(&bytes_case(b'R', &[&[byte], &name[..]].concat()));
                sink.put(&bytes_case(b'R', &[&name[..], &[byte]].concat()));
            }
            for at in 0..name.len() {
                for byte in (0..=255u8).step_by(plan.either(3, 1)) {
                    let mut other = name.clone();
                    other[at] = byte;
                    sink.put(&bytes_case(b'R', &other));
                }
                sink.put(&bytes_case(b'R', &[&name[..at], &name[at + 1..]].concat()));
            }
        }
        for text in [format!("{base}\n"), format!("\n{base}"), format!("{base}1\n"), format!("{base}1{base}1")] {
            sink.put(&bytes_case(b'R', text.as_bytes()));
        }
        for length in 0..200 {
            sink.put(&bytes_case(b'R', &base.as_bytes().repeat(80)[..length]));
        }
    }
    let letters: &[&[u8]] = &[b"C", b"O", b"N", b"m", b"P", b"R", b"A", b"u", b"X", b"L", b"T", b"1", b"9"];
    each_sequence(letters, plan.either(4, 5), &mut |text| sink.put(&bytes_case(b'R', text)));
}

fn each_pair(sink: &mut Sink, op: u8) {
    sink.put(&bytes_case(op, b""));
    for first in 0..=255u8 {
        sink.put(&bytes_case(op, &[first]));
        for second in 0..=255u8 {
            sink.put(&bytes_case(op, &[first, second]));
        }
    }
}

/// A random name of at most `most` bytes, mostly over few letters, so that names meet and prefix each other.
pub fn name(rng: &mut Rng, most: usize) -> Vec<u8> {
    (0..rng.below(most + 1))
        .map(|_| if rng.percent(95) { b"ab\x7f\x80\xff"[rng.below(5)] } else { rng.byte() })
        .collect()
}

fn lookup(flag: u8, text: &[u8]) -> Case {
    Case { op: b'N', flag, payload: text.to_vec(), ..Case::default() }
}

/// Well-formed tables of every small size: each name in them, and names beside them.
pub fn lookups(plan: &Plan, sink: &mut Sink) {
    for flag in [1, 2, 3] {
        sink.put(&lookup(flag, b""));
        sink.put(&lookup(flag, b"a"));
    }
    for round in 0..plan.either(7_000, 30_000) {
        let flag = 1 + sink.rng.below(3) as u8;
        let size = if round % 50 == 0 { 200 } else { sink.rng.below(20) };
        let names: Vec<Vec<u8>> = (0..size).map(|_| name(&mut sink.rng, 6)).collect();
        sink.lend(flag, &names);
        for known in names.iter().take(12) {
            sink.put(&lookup(flag, known));
            let near = mutated(&mut sink.rng, known);
            sink.put(&lookup(flag, &near));
        }
        for _ in 0..8 {
            let other = name(&mut sink.rng, 7);
            sink.put(&lookup(flag, &other));
        }
        if sink.rng.percent(10) {
            // `a` is not looked at, the payload is passed over
            let payload = name(&mut sink.rng, 9);
            sink.put(&Case { op: b'T', a: u32::MAX, payload, ..Case::default() });
            sink.put(&lookup(3, b"a"));
        }
    }
}

/// A table that is mostly malformed, in one of the ways a table can be.
pub fn any_table(rng: &mut Rng, number: u8) -> Case {
    let mut names: Vec<Vec<u8>> = (0..rng.below(8)).map(|_| name(rng, 4)).collect();
    if rng.percent(80) {
        names.sort();
    }
    if rng.percent(70) {
        names.dedup();
    }
    let mut bytes = names.concat();
    let mut ends: Vec<u32> = names
        .iter()
        .scan(0, |end, n| {
            *end += n.len() as u32;
            Some(*end)
        })
        .collect();
    let at = rng.below(ends.len().max(1));
    match rng.below(8) {
        0 if !ends.is_empty() => ends[at] = ends[at].wrapping_add(1),
        1 if !ends.is_empty() => ends[at] = ends[at].wrapping_sub(1),
        2 if !ends.is_empty() => ends[at] = rng.word() as u32,
        3 => bytes.push(b'z'),
        4 => {
            bytes.pop();
        }
        5 => ends.push(bytes.len() as u32),
        _ => {}
    }
    table(number, &ends, &bytes)
}

pub fn malformed_lookups(plan: &Plan, sink: &mut Sink) {
    // each wrong in one place, so that first bad entries of every number are met
    for size in 1..12u32 {
        let bytes: Vec<u8> = (0..size).map(|i| b'a' + i as u8).collect();
        let ends: Vec<u32> = (1..=size).collect();
        for wrong in 0..size as usize {
            for value in [0, wrong as u32, wrong as u32 + 2, size + 1, u32::MAX] {
                let mut ends = ends.clone();
                ends[wrong] = value;
                sink.put(&table(1, &ends, &bytes));
                sink.put(&lookup(1, b"a"));
            }
            let mut bytes = bytes.clone();
            bytes[wrong] = b'a';
            sink.put(&table(1, &ends, &bytes));
            sink.put(&lookup(1, b"c"));
        }
        for length in [0, size - 1, size + 1] {
            let bytes: Vec<u8> = (0..length).map(|i| b'a' + i as u8).collect();
            sink.put(&table(2, &ends, &bytes));
            sink.put(&lookup(2, b"b"));
        }
    }
    for _ in 0..plan.either(12_000, 400_000) {
        let flag = 1 + sink.rng.below(3) as u8;
        let lent = any_table(&mut sink.rng, flag);
        sink.put(&lent);
        let text = name(&mut sink.rng, 4);
        sink.put(&lookup(flag, &text));
    }
}
