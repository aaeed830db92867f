//! The two readings against each other: where they agree, where they are told apart, and what the strict one keeps to.
use oracle::cases::{Case, Next, READING_OPS, STRICT};
use oracle::gen::{find, sink::span_case, stepping::state_bytes, Plan};
use oracle::readings::Reading;
use oracle::{ops, tables::Tables};

/// The cases of a short stream, in the Rust's reading.
fn cases(name: &str) -> Vec<Case> {
    let (stream, _) = find(name).expect("a stream");
    let mut input = vec![];
    stream.put(Reading::Rust, &Plan { long: false, mm: None }, &mut input);
    let (mut rest, mut all) = (&input[..], vec![]);
    loop {
        let mut case = Case::default();
        match case.read(&mut rest).unwrap() {
            Next::Case => all.push(case),
            Next::End => return all,
            Next::Bad => panic!("a bad case in {name}"),
        }
    }
}

/// The answer in a reading, with room for all.
fn answer(case: &Case, reading: u8) -> String {
    let room = 10 * case.payload.len() as u32 + 64;
    let mut out = vec![];
    ops::answer(&Case { reading, room, ..case.clone() }, &mut Tables::default(), &mut out).expect("a case");
    String::from_utf8(out).unwrap()
}

/// The records behind the head line.
fn records(answer: &str) -> Vec<Vec<usize>> {
    answer.lines().skip(1).map(|line| line.split('\t').map(|word| word.parse().unwrap()).collect()).collect()
}

fn shown(case: &Case) -> String {
    format!("{} {} {}", case.payload.escape_ascii(), case.a, case.b)
}

#[test]
fn events_differ_by_the_four_bytes_alone() {
    let (mut alike, mut apart) = (0, 0);
    for case in ["E-exhaustive", "E-random", "E-bytes", "E-readings"].into_iter().flat_map(cases) {
        let differ = answer(&case, 0) != answer(&case, STRICT);
        if !case.payload.iter().any(|byte| b"`~[<".contains(byte)) {
            assert!(!differ, "{}", shown(&case));
            alike += 1;
        }
        apart += usize::from(differ);
    }
    assert!(alike > 300_000 && apart > 40_000, "{alike} alike, {apart} told apart");
}

/// Math, labels, urls, HTML marks and tags: an underscore is one byte, whether it opens something or not.
#[test]
fn all_other_marks_are_the_same() {
    let mut marks = 0;
    for case in ["E-exhaustive", "E-random", "E-readings"].into_iter().flat_map(cases) {
        let [rust, strict] = [0, STRICT].map(|reading| {
            let mut list = records(&answer(&case, reading));
            list.retain(|record| [3, 4, 6, 7, 8, 9, 14].contains(&record[0]));
            list
        });
        assert_eq!(rust, strict, "{}", shown(&case));
        marks += rust.len();
    }
    assert!(marks > 500_000, "{marks} marks");
}

/// Exactly where an author of the Rust's list holds an opening parenthesis.
#[test]
fn credits_differ_by_a_parenthesis_alone() {
    let mut apart = 0;
    for case in ["P-words", "P-mutated", "P-random", "P-readings"].into_iter().flat_map(cases) {
        let [rust, strict] = [0, STRICT].map(|reading| answer(&case, reading));
        let holds = |list: &str| records(list).iter().any(|r| case.payload[r[3]..r[4]].contains(&b'('));
        assert_eq!(rust != strict, holds(&rust), "{}", shown(&case));
        assert!(!holds(&strict), "{}", shown(&case));
        apart += usize::from(rust != strict);
    }
    assert!(apart > 3_000, "{apart} told apart");
}

/// In the strict reading a subscript is one Text and its end, an italic is Texts and LineBreaks and its end, and math is tokens.
#[test]
fn strict_events_nest() {
    let (mut subscripts, mut italics, mut tokens) = (0, 0, 0);
    for case in ["E-exhaustive", "E-random", "E-readings"].into_iter().flat_map(cases) {
        let kinds: Vec<usize> = records(&answer(&case, STRICT)).iter().map(|record| record[0]).collect();
        let mut rest = &kinds[..];
        while let [kind, behind @ ..] = rest {
            rest = match kind {
                10 => {
                    subscripts += 1;
                    behind.strip_prefix(&[1, 11]).unwrap_or_else(|| panic!("{}", shown(&case)))
                }
                12 => {
                    italics += 1;
                    let inside = behind.iter().take_while(|kind| [1, 2].contains(kind)).count();
                    behind[inside..].strip_prefix(&[13]).unwrap_or_else(|| panic!("{}", shown(&case)))
                }
                3 => {
                    let inside = behind.iter().take_while(|&&kind| kind == 5).count();
                    tokens += inside;
                    let closed = &behind[inside..];
                    assert!(matches!(closed, [] | [4, ..]), "{}", shown(&case));
                    closed.get(1..).unwrap_or(&[])
                }
                4 | 5 | 11 | 13 => panic!("{}", shown(&case)),
                _ => behind,
            };
        }
    }
    assert!(subscripts > 10_000 && italics > 5_000 && tokens > 10_000, "{subscripts} {italics} {tokens}");
}

/// Byte 2 is looked at where the op has a reading, byte 3 nowhere.
#[test]
fn header_bytes() {
    for op in *b"TESPQFDKOWUVLRNCH" {
        let has_reading = READING_OPS.contains(&op);
        let payload = match op {
            b'S' | b'V' => [&state_bytes([3, 0, 0, 0, 0, 0, 0, 0, u32::MAX, 0])[..], b"x_`"].concat(),
            _ => b"x_`".to_vec(),
        };
        let flag = u8::from(op == b'N');
        let good = Case { flag, c: 1, room: 64, payload, ..span_case(op, b"", 0, 3) };
        let said = |case: &Case| {
            let mut input = vec![];
            case.write(&mut input).unwrap();
            let mut read = Case::default();
            (read.read(&mut &input[..]).unwrap() == Next::Case).then(|| {
                let mut out = vec![];
                ops::answer(&read, &mut Tables::default(), &mut out).expect("a case");
                out
            })
        };
        assert!(said(&good).is_some(), "{op}");
        for spare in [1, 128, 255] {
            assert_eq!(said(&Case { spare, ..good.clone() }), said(&good), "{op}");
        }
        for reading in [2, 3, 128, 255] {
            let other = said(&Case { reading, ..good.clone() });
            assert_eq!(other, if has_reading { None } else { said(&good) }, "{op}");
        }
        let strict = said(&Case { reading: STRICT, ..good.clone() });
        assert!(strict.is_some(), "{op}");
        // a backtick right behind the underscore: no subscript in the strict reading
        assert_eq!(strict != said(&good), b"ESC".contains(&op), "{op}");
    }
}
