//! What is ours and not the crate's: refusals and their order, rooms, tables, and what is no case.
use oracle::cases::{Case, Next, CHECK_FLAGS};
use oracle::gen::{bad, sink::table, sink::Sink, stepping::state_bytes, stored, streams_for, Plan};
use oracle::{ops, tables::Tables};

/// The answers to a run of cases, as the program prints them.
fn run(input: &[u8]) -> String {
    let (mut rest, mut out) = (input, vec![]);
    let (mut case, mut tables) = (Case::default(), Tables::default());
    loop {
        let good = match case.read(&mut rest).unwrap() {
            Next::End => break,
            Next::Bad => None,
            Next::Case => ops::answer(&case, &mut tables, &mut out),
        };
        if good.is_none() {
            out.extend_from_slice(b"bad case\n");
            break;
        }
    }
    String::from_utf8(out).unwrap().replace('\t', " ")
}

fn run_cases(cases: &[Case]) -> String {
    let mut input = vec![];
    cases.iter().for_each(|c| c.write(&mut input).unwrap());
    run(&input)
}

fn case(op: u8, a: u32, b: u32, room: u32, text: &[u8]) -> Case {
    Case { op, a, b, room, payload: text.to_vec(), ..Case::default() }
}

#[test]
fn bad_inputs_end_the_run() {
    for input in bad::inputs() {
        assert_eq!(run(&input.input), "L 0 1\nbad case\n", "{}", input.name);
    }
}

#[test]
fn records_that_fit() {
    // five words a record, for events and diagnostics alike
    let records = ["1 0 0 1 1\n", "3 1 1 1 1\n", "5 2 2 3 1\n"];
    for (room, fit) in [(0, 0), (4, 0), (5, 1), (9, 1), (10, 2), (14, 2), (15, 3), (16, 3)] {
        let answer = if fit < 3 { 7 } else { 0 };
        let want = format!("E {answer} 3\n{}", records[..fit].concat());
        assert_eq!(run_cases(&[case(b'E', 0, 3, room, b"a`b")]), want, "{room}");
    }
    let records = ["2 7 0 0 2\n", "3 0 6 0 1\n"];
    for (room, fit) in [(0, 0), (4, 0), (5, 1), (9, 1), (10, 2), (11, 2)] {
        let answer = if fit < 2 { 7 } else { 0 };
        let want = format!("C {answer} 2\n{}", records[..fit].concat());
        assert_eq!(run_cases(&[case(b'C', 0, 8, room, b"<html>\n_")]), want, "{room}");
    }
    assert_eq!(run_cases(&[case(b'E', 0, 4, 12, b"a`b")]), "E 2 0\n");
    assert_eq!(run_cases(&[case(b'P', 2, 1, 12, b"a`b")]), "P 2 0\n");
    assert_eq!(run_cases(&[case(b'Q', 2, 1, 12, b"a`b")]), "Q 2 0 0\n");
}

#[test]
fn texts_that_fit() {
    assert_eq!(run_cases(&[case(b'U', 0, 2, 1, b"~~")]), "U 0 1 7e\n");
    assert_eq!(run_cases(&[case(b'U', 0, 2, 0, b"~~")]), "U 7 1\n");
    assert_eq!(run_cases(&[case(b'U', 2, 2, 0, b"~~")]), "U 0 0 -\n");
    assert_eq!(run_cases(&[case(b'U', 2, 3, 0, b"~~")]), "U 2\n");
    let date = |b, room| Case { op: b'W', a: 7, b, c: 1, room, ..Case::default() };
    assert_eq!(
        run_cases(&[date(1, 10), date(0, 0), date(13, 10), date(1, 9)]),
        "W 0 10 312d4a616e2d30303037\nW 6\nW 6\nW 7 10\n"
    );
}

#[test]
fn states() {
    let state = |end, pos| [&state_bytes([end, pos, 0, 0, 0, 0, 0, 0, u32::MAX, 0])[..], b"a~~"].concat();
    let steps = |end, pos, c| run_cases(&[Case { op: b'S', c, payload: state(end, pos), ..Case::default() }]);
    assert_eq!(steps(3, 4, 1), "S 3 0 0\nstate 3 4 0 0 0 0 0 0 4294967295 0\n");
    assert_eq!(steps(4, 0, 1), "S 3 0 0\nstate 4 0 0 0 0 0 0 0 4294967295 0\n");
    assert_eq!(steps(4, 0, 0), "S 0 0 0\nstate 4 0 0 0 0 0 0 0 4294967295 0\n");
    assert_eq!(steps(3, 0, 9), "S 0 1 1\n1 0 0 3\nstate 3 3 0 0 0 0 0 0 4294967295 0\n");
    // an event that is given by a step, and one that waits, has four words: no line
    let fresh = [&state_bytes([4, 2, 0, 0, 0, 0, 0, 0, u32::MAX, 0])[..], b"\n\na`"].concat();
    assert_eq!(
        run_cases(&[Case { op: b'S', c: 1, payload: fresh, ..Case::default() }]),
        "S 0 1 0\n1 2 2 3\nstate 4 4 1 0 3 3 3 3 4294967295 0\n"
    );
    let call = |end, pos, b, room| run_cases(&[case(b'V', 0, b, room, &state(end, pos))]);
    assert_eq!(call(3, 3, 3, 2), "V 0 2 617e\n");
    assert_eq!(call(3, 3, 3, 1), "V 7 2\n");
    assert_eq!(call(2, 3, 3, 1), "V 2\n");
    assert_eq!(call(2, 3, 2, 1), "V 3\n");
    assert_eq!(call(4, 0, 4, 1), "V 2\n");
}

#[test]
fn tables_and_their_first_bad_entry() {
    let look = |ends: &[u32], bytes: &[u8], name: &[u8]| {
        run_cases(&[table(2, ends, bytes), Case { op: b'N', flag: 2, payload: name.to_vec(), ..Case::default() }])
    };
    assert_eq!(look(&[0, 1, 3], b"aab", b""), "N 0 1 0\n");
    assert_eq!(look(&[1, 3], b"aab", b"ab"), "N 0 1 1\n");
    assert_eq!(look(&[1, 3], b"aab", b"a"), "N 0 1 0\n");
    assert_eq!(look(&[1, 3], b"aab", b"b"), "N 0 0\n");
    assert_eq!(look(&[], b"", b""), "N 0 0\n");
    assert_eq!(look(&[1, 2], b"aa", b"a"), "N 4 1 1\n");
    assert_eq!(look(&[0, 0], b"", b""), "N 4 1 1\n");
    assert_eq!(look(&[1, 0], b"a", b""), "N 4 1 1\n");
    assert_eq!(look(&[1, 3], b"ab", b""), "N 4 1 1\n");
    assert_eq!(look(&[1, 2], b"abc", b""), "N 4 1 2\n");
    assert_eq!(look(&[], b"a", b""), "N 4 1 0\n");
}

#[test]
fn links_that_fit_and_their_refusals() {
    // entries: the empty name, a, ax-1
    let lent = table(2, &[0, 1, 5], b"aax-1");
    let text = b"~ ax-1 ~ a ~ b ~";
    let ask = |a, b, room| case(b'H', a, b, room, text);
    let run_lent = |asked: Case| run_cases(&[lent.clone(), asked]);
    assert_eq!(run_cases(&[ask(0, 16, 9)]), "H 0 0\n");
    assert_eq!(run_lent(ask(0, 16, 0)), "H 7 3\n");
    assert_eq!(run_lent(ask(0, 16, 2)), "H 7 3\n");
    assert_eq!(run_lent(ask(0, 16, 3)), "H 7 3\n2 6 2\n");
    assert_eq!(run_lent(ask(0, 16, 8)), "H 7 3\n2 6 2\n9 10 1\n");
    let all = "H 0 3\n2 6 2\n9 10 1\n16 16 0\n";
    assert_eq!(run_lent(ask(0, 16, 9)), all);
    assert_eq!(run_lent(ask(0, 16, 11)), all);
    assert_eq!(run_lent(ask(7, 14, 3)), "H 0 1\n9 10 1\n");
    assert_eq!(run_lent(ask(0, 17, 9)), "H 2 0\n");
    assert_eq!(run_lent(ask(3, 2, 9)), "H 2 0\n");
    // the labels are lent alone, so they are table 1; a span that is none comes first, a short room last
    let bad = |number| table(number, &[1, 1], b"a");
    assert_eq!(run_cases(&[bad(2), ask(0, 16, 0), ask(0, 17, 0)]), "H 4 1 1\nH 2 0\n");
    // the other tables are not looked at
    assert_eq!(run_cases(&[bad(1), bad(3), lent.clone(), ask(0, 16, 9)]), all);
}

#[test]
fn the_check_tells_the_lowest_refusal() {
    let bad = |number| table(number, &[], b"a");
    let none = Case { op: b'T', ..Case::default() };
    let tag = case(b'C', 0, 3, 5, b"[a]");
    let lent = [bad(3), tag.clone(), bad(2), tag.clone(), none, tag.clone(), table(2, &[], b""), tag];
    assert_eq!(run_cases(&lent), "C 4 3 0\nC 4 2 0\nC 4 2 0\nC 0 1\n8 1 2 0 1\n");
    assert_eq!(run_cases(&[bad(1), case(b'C', 0, 4, 0, b"[a]")]), "C 2 0\n");
}

#[test]
fn tags_of_the_check() {
    let tag = |flag| Case { flag, ..case(b'C', 0, 3, 5, b"[a]") };
    let [by_default, by_choice] = CHECK_FLAGS.map(tag);
    let none = Case { op: b'T', ..Case::default() };
    let (clean, undefined) = ("C 0 0\n", "C 0 1\n8 1 2 0 1\n");
    // none at the start; a bibliography with the tag, one without it, an empty one; the tag's taken away again
    let has_tag = table(3, &[1], b"a");
    for (lent, answer) in [
        (vec![], undefined),
        (vec![has_tag.clone()], clean),
        (vec![table(3, &[1], b"b")], undefined),
        (vec![table(3, &[], b"")], undefined),
        (vec![has_tag, none], undefined),
    ] {
        let cases = [&lent[..], &[by_default.clone(), by_choice.clone()]].concat();
        assert_eq!(run_cases(&cases), [answer, clean].concat());
    }
    // malformed tables: by the named choice the third is not looked at
    let bad = |number| table(number, &[], b"a");
    assert_eq!(run_cases(&[bad(3), by_default.clone(), by_choice.clone()]), ["C 4 3 0\n", clean].concat());
    for number in [1, 2] {
        let told = format!("C 4 {number} 0\n");
        let lent = [bad(number), bad(3), by_default.clone(), by_choice.clone()];
        assert_eq!(run_cases(&lent), [&told[..], &told].concat());
    }
    // a short room, and a span that is none
    let short = |flag| Case { room: 4, ..tag(flag) };
    assert_eq!(run_cases(&CHECK_FLAGS.map(short)), ["C 7 1\n", clean].concat());
    assert_eq!(run_cases(&[bad(1), Case { b: 4, ..by_choice }]), "C 2 0\n");
    // another flag is no case
    for flag in [2, 255] {
        assert_eq!(run_cases(&[tag(flag), by_default.clone()]), "bad case\n");
    }
}

/// The records of E and C in what is stored and in the short streams about lines: each line counted anew from the buffer's start.
#[test]
fn lines_as_defined() {
    let mut input = vec![];
    let mut sink = Sink::new("lines", &mut input);
    for stream in streams_for("ETC").filter(|s| s.name.ends_with("-lines") && !s.reads_mm) {
        (stream.make)(&Plan { long: false, mm: None }, &mut sink);
    }
    b"EC".iter().for_each(|&op| stored::put(op, &mut sink));
    let (mut rest, mut case, mut tables) = (&input[..], Case::default(), Tables::default());
    let mut held = 0;
    while case.read(&mut rest).unwrap() == Next::Case {
        let mut out = vec![];
        ops::answer(&case, &mut tables, &mut out).expect("a case");
        for record in String::from_utf8(out).unwrap().lines().skip(1) {
            let words: Vec<usize> = record.split('\t').map(|word| word.parse().unwrap()).collect();
            let feeds = case.payload[..words[1]].iter().filter(|&&byte| byte == b'\n').count();
            assert_eq!((words.len(), words[4]), (5, 1 + feeds), "{:?}", case.payload.escape_ascii().to_string());
            held += 1;
        }
    }
    assert!(held > 300_000, "{held} records");
}
