//! Inputs that are no run of cases: each ends its run with `bad case`, so each is an input of its own.
use super::sink::{span_case, table};
use super::stepping::state_bytes;
use crate::cases::{Case, MOST_TEXT, MOST_WORDS, READING_OPS, STRICT};

/// A name, the ops that a program has to know for it, and the input.
pub struct Bad {
    pub name: String,
    pub ops: &'static str,
    pub input: Vec<u8>,
}

/// Every bad input. A good case stands before it, and one behind it that is not answered.
pub fn inputs() -> Vec<Bad> {
    let mut all = vec![];
    let good = bytes_of(&Case { op: b'L', payload: b"a".to_vec(), ..Case::default() });
    let mut add = |ops: &'static str, name: &str, middle: Vec<u8>, tail: &[u8]| {
        all.push(Bad { name: format!("{ops}-{name}"), ops, input: [&good[..], &middle, tail].concat() });
    };
    for length in [1, 4, 12, 23] {
        add("L", &format!("header-cut-at-{length}"), good[..length].to_vec(), b"");
    }
    add("L", "payload-cut", good[..24].to_vec(), b"");
    for op in [0, b'?', b'A', b'Z', b'l', 0xff] {
        add("L", &format!("op-{op}"), bytes_of(&Case { op, ..Case::default() }), &good);
    }
    for (op, ops) in OPS {
        let mut over = bytes_of(&Case { op, flag: 1, payload: vec![], ..Case::default() });
        over[20..24].copy_from_slice(&if op == b'T' { 262_145u32 } else { 65_537 }.to_le_bytes());
        over.resize(over.len() + 262_145, b'a');
        add(ops, "payload-over-the-limit", over, &good);
    }
    // a table of each number that is one byte too long, and one that the input cuts in an end or in the names
    for (flag, most) in [(0, 262_144u32), (2, 2_097_152), (3, 262_144)] {
        let mut over = bytes_of(&table(flag, &[], b""));
        over[20..24].copy_from_slice(&(most + 1).to_le_bytes());
        over.resize(over.len() + most as usize + 1, 0);
        add("LT", &format!("payload-over-the-limit-of-{flag}"), over, &good);
    }
    for flag in 0..=3 {
        let lent = bytes_of(&table(flag, &[1, 2], b"ab"));
        for length in [24, 27, 31, 33] {
            add("LT", &format!("table-{flag}-cut-at-{length}"), lent[..length].to_vec(), b"");
        }
    }
    for (name, case) in no_cases() {
        let ops = OPS.iter().find(|(op, _)| *op == case.op).expect("a known op").1;
        let strict = if case.reading == STRICT { "-strict" } else { "" };
        add(ops, &format!("{name}{strict}"), bytes_of(&case), &good);
    }
    all
}

/// Each op with its letter, and what it needs beside itself.
const OPS: [(u8, &str); 17] = [
    (b'T', "LT"),
    (b'E', "LE"),
    (b'S', "LS"),
    (b'P', "LP"),
    (b'Q', "LQ"),
    (b'F', "LF"),
    (b'D', "LD"),
    (b'K', "LK"),
    (b'O', "LO"),
    (b'W', "LW"),
    (b'U', "LU"),
    (b'V', "LV"),
    (b'L', "L"),
    (b'R', "LR"),
    (b'N', "LTN"),
    (b'C', "LTC"),
    (b'H', "LTH"),
];

/// What REPLAY.md calls no case, op by op.
fn no_cases() -> Vec<(&'static str, Case)> {
    let state = |at: usize, value: u32| {
        let mut words = [2, 0, 0, 0, 0, 0, 0, 0, u32::MAX, 0];
        words[at] = value;
        [&state_bytes(words)[..], b"ab"].concat()
    };
    let waiting = |w: [u32; 4]| [&state_bytes([2, 0, 0, 0, w[0], w[1], w[2], w[3], u32::MAX, 0])[..], b"ab"].concat();
    let date = |op, a, b, c| Case { op, a, b, c, room: 20, ..Case::default() };
    let mut cases = vec![
        ("flag-4", table(4, &[], b"")),
        ("flag-255", table(255, &[], b"")),
        ("ends-past-the-payload", Case { a: 2, ..table(1, &[1], b"abc") }),
        ("ends-that-wrap", Case { a: 0x4000_0000, ..table(1, &[], b"") }),
        ("too-many-ends", Case { op: b'T', flag: 1, a: 65_537, payload: vec![0; 262_144], ..Case::default() }),
        (
            "too-many-ends-of-labels",
            Case { op: b'T', flag: 2, a: 131_073, payload: vec![0; 4 * 131_073], ..Case::default() },
        ),
        ("year-over", date(b'K', 65_536, 1, 1)),
        ("month-over", date(b'K', 1, 256, 1)),
        ("day-over", date(b'K', 1, 1, 256)),
        ("year-over", date(b'W', 65_536, 1, 1)),
        ("month-over", date(b'W', 1, 256, 1)),
        ("day-over", date(b'W', 1, 1, 256)),
        ("room-over", Case { room: MOST_TEXT + 1, ..date(b'W', 1, 1, 1) }),
        ("room-over", Case { room: MOST_TEXT + 1, ..span_case(b'U', b"a", 0, 1) }),
        ("flag-4", Case { flag: 4, ..span_case(b'U', b"a", 0, 1) }),
        ("room-over", Case { room: MOST_WORDS + 1, ..span_case(b'E', b"a", 0, 1) }),
        ("room-over", Case { room: MOST_WORDS + 1, ..span_case(b'P', b"a", 0, 1) }),
        ("room-over", Case { room: MOST_WORDS + 1, ..span_case(b'C', b"a", 0, 1) }),
        ("flag-2", Case { flag: 2, ..span_case(b'C', b"a", 0, 1) }),
        ("flag-255", Case { flag: 255, ..span_case(b'C', b"a", 0, 1) }),
        ("room-over", Case { room: MOST_WORDS + 1, ..span_case(b'H', b"a", 0, 1) }),
        ("flag-0", Case { op: b'N', ..Case::default() }),
        ("flag-4", Case { op: b'N', flag: 4, ..Case::default() }),
        ("short", Case { op: b'S', c: 1, payload: vec![0; 39], ..Case::default() }),
        ("short", Case { op: b'V', payload: vec![0; 39], ..Case::default() }),
        ("flag-1", Case { op: b'V', flag: 1, payload: state(0, 2), ..Case::default() }),
        ("flag-4", Case { op: b'V', flag: 4, payload: state(0, 2), ..Case::default() }),
        ("room-over", Case { op: b'V', room: MOST_TEXT + 1, payload: state(0, 2), ..Case::default() }),
    ];
    // a reading that is none, of each op that has one; the rest of the case is good
    for &op in READING_OPS {
        let payload = if matches!(op, b'S' | b'V') { state(0, 2) } else { b"ab".to_vec() };
        for (name, reading) in [("reading-2", 2), ("reading-128", 128), ("reading-255", 255)] {
            cases.push((name, Case { op, reading, b: 2, room: 64, payload: payload.clone(), ..Case::default() }));
        }
    }
    // states that are none, in the strict reading too
    for (op, reading) in [(b'S', 0), (b'V', 0), (b'S', STRICT), (b'V', STRICT)] {
        for (name, payload) in [
            ("math-2", state(2, 2)),
            ("html-2", state(3, 2)),
            ("waiting-15", state(4, 15)),
            ("none-waits-with-a-place", waiting([0, 1, 1, 1])),
            ("none-waits-with-an-end", waiting([0, 0, 0, 1])),
            ("text-with-another-place", waiting([1, 0, 1, 2])),
            ("token-with-another-place", waiting([5, 2, 1, 2])),
            ("tag-with-another-place", waiting([14, 0, 1, 2])),
            ("place-with-another-end", waiting([2, 1, 1, 2])),
            ("place-with-another-start", waiting([13, 1, 0, 1])),
        ] {
            cases.push((name, Case { op, reading, c: 0, payload, ..Case::default() }));
        }
    }
    cases
}

fn bytes_of(case: &Case) -> Vec<u8> {
    let mut out = vec![];
    case.write(&mut out).expect("a vector takes all");
    out
}
