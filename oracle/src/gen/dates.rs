//! Cases for dates: read (D), calendar check (K), order (O), written (W).
use super::sink::Sink;
use super::texts::each_sequence;
use super::Plan;
use crate::cases::{Case, MOST_TEXT};

const MONTHS: [&str; 12] = ["Jan", "Feb", "Mar", "Apr", "May", "Jun", "Jul", "Aug", "Sep", "Oct", "Nov", "Dec"];

fn bytes_case(op: u8, text: &[u8]) -> Case {
    Case { op, payload: text.to_vec(), ..Case::default() }
}

/// Dates put together from fields that fit and fields that do not.
pub fn read(plan: &Plan, sink: &mut Sink) {
    for day in 0..=99 {
        for month in MONTHS {
            for year in ["0000", "0004", "1900", "1999", "2000", "2020", "2023", "2100", "9999"] {
                sink.put(&bytes_case(b'D', format!("{day}-{month}-{year}").as_bytes()));
            }
        }
    }
    let days =
        ["0", "1", "9", "+", "-", "a", " ", "00", "01", "31", "+5", "-5", "5+", "++", " 1", "1 ", "", "123", "\u{e9}"];
    let months = ["Jan", "Feb", "Dec", "jan", "JAN", "Ja", "Janu", "Xyz", "\u{e9}n", "May"];
    let years = [
        "2020", "+123", "++12", "+", "12+3", "-123", " 123", "123", "12345", "202a", "0000", "+000", "9999", "\u{e9}20",
    ];
    let seps = ["-", "x", "", "\0", "--", "\n"];
    for day in days {
        for month in months {
            for year in years {
                for sep in seps {
                    for sep2 in seps {
                        let text = [day, sep, month, sep2, year].concat();
                        sink.put(&bytes_case(b'D', text.as_bytes()));
                    }
                }
            }
        }
    }
    // every year of four bytes over telling bytes, every day of two
    let digits: &[&[u8]] = &[b"+", b"-", b"0", b"9", b"/", b":", b" ", b"\xb2"];
    each_sequence(digits, 4, &mut |year| sink.put(&bytes_case(b'D', &[b"1-Jan-", year].concat())));
    each_sequence(digits, 2, &mut |day| sink.put(&bytes_case(b'D', &[day, b"-Jan-2020"].concat())));
    for length in 0..=plan.either(24, 300) {
        sink.put(&bytes_case(b'D', &vec![b'1'; length]));
        sink.put(&bytes_case(b'D', &b"11-Jan-2020".repeat(30)[..length]));
    }
    // every month name of three telling letters
    let letters: &[&[u8]] = &[
        b"J", b"F", b"M", b"A", b"S", b"O", b"N", b"D", b"a", b"b", b"c", b"e", b"g", b"l", b"n", b"o", b"p", b"r",
        b"t", b"u", b"v", b"y",
    ];
    each_sequence(letters, 3, &mut |month| sink.put(&bytes_case(b'D', &[b"7-", month, b"-2021"].concat())));
}

/// A good date with one byte replaced by every byte there is, left out, or put in.
pub fn read_mutated(_: &Plan, sink: &mut Sink) {
    for good in ["5-Aug-1993", "12-Jun-2014", "+5-Feb-+123", "00-Dec-0000"] {
        let good = good.as_bytes();
        for at in 0..good.len() {
            for byte in 0..=255u8 {
                let mut other = good.to_vec();
                other[at] = byte;
                sink.put(&bytes_case(b'D', &other));
                let more = [&good[..at], &[byte], &good[at..]].concat();
                sink.put(&bytes_case(b'D', &more));
            }
            sink.put(&bytes_case(b'D', &[&good[..at], &good[at + 1..]].concat()));
        }
    }
}

/// Every month and day there is, for years of each kind; in the long run for every year that a date is read with.
pub fn calendar(plan: &Plan, sink: &mut Sink) {
    let few =
        [0, 1, 2, 3, 4, 100, 400, 1900, 1999, 2000, 2020, 2100, 9999, 10_000, 10_100, 65_200, 65_500, 65_532, 65_535];
    let many: Vec<u32> = (0..=9_999).chain(few).collect();
    for &a in if plan.long { &many[..] } else { &few[..] } {
        for b in (0..=14).chain([128, 255]) {
            for c in (0..=40).chain([127, 128, 255]) {
                sink.put(&Case { op: b'K', a, b, c, ..Case::default() });
            }
        }
    }
    for a in 0..=plan.either(2_000, 65_535) {
        for (b, c) in [(2, 28), (2, 29), (2, 30), (4, 31), (12, 31), (1, 0)] {
            sink.put(&Case { op: b'K', a, b, c, ..Case::default() });
        }
    }
}

/// Pairs of dates that differ in each field, up and down, and pairs by chance.
pub fn order(plan: &Plan, sink: &mut Sink) {
    let years = [0, 1, 255, 256, 1999, 2000, 65_535];
    let small = [0, 1, 2, 12, 255];
    let mut dates = vec![];
    for year in years {
        for month in small {
            for day in small {
                dates.push(year << 16 | month << 8 | day);
            }
        }
    }
    for &a in &dates {
        for &b in &dates {
            sink.put(&Case { op: b'O', a, b, ..Case::default() });
        }
    }
    for _ in 0..plan.either(10_000, 1_000_000) {
        let a = sink.rng.word() as u32;
        let b = match sink.rng.below(4) {
            0 => sink.rng.word() as u32,
            1 => a ^ (1 << sink.rng.below(32)),
            2 => a.wrapping_add(1),
            _ => a,
        };
        sink.put(&Case { op: b'O', a, b, ..Case::default() });
    }
}

/// Each kind of year, month and day, with each telling room.
pub fn written(plan: &Plan, sink: &mut Sink) {
    let years = [0, 1, 9, 10, 99, 100, 999, 1000, 1993, 2020, 9999, 10_000, 12_345, 65_535];
    let days = [0, 1, 9, 10, 31, 99, 100, 199, 255];
    for a in years {
        for b in (0..=14).chain([99, 128, 255]) {
            for c in days {
                for room in [0, 1, 9, 10, 11, 12, 13, 14, 100] {
                    sink.put(&Case { op: b'W', a, b, c, room, ..Case::default() });
                }
            }
        }
    }
    for _ in 0..plan.either(20_000, 500_000) {
        let rng = &mut sink.rng;
        let (a, b, c) = (rng.below(65_536) as u32, 1 + rng.below(12) as u32, rng.below(256) as u32);
        sink.put_roomed(Case { op: b'W', a, b, c, ..Case::default() });
    }
    for c in 0..=255 {
        sink.put(&Case { op: b'W', a: 2020, b: 1 + c % 12, c, room: 32, ..Case::default() });
    }
    sink.put(&Case { op: b'W', a: 2020, b: 2, c: 29, room: MOST_TEXT, ..Case::default() });
    sink.put(&Case { op: b'W', a: 2020, b: 0, c: 29, room: MOST_TEXT, ..Case::default() });
}
