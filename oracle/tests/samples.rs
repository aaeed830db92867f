//! The samples of document 01, marked or not, run through the oracle.
use oracle::cases::{Case, NO_TAG_LOOKUP, STRICT};
use oracle::gen::sink::table;
use oracle::{ops, tables::Tables};

fn run_with(tables: &mut Tables, case: &Case) -> String {
    let mut out = vec![];
    ops::answer(case, tables, &mut out).expect("a case");
    String::from_utf8(out).unwrap().replace('\t', " ")
}

fn run(case: &Case) -> String {
    run_with(&mut Tables::default(), case)
}

/// A case of a span with room for everything.
fn span_case(op: u8, text: &str, a: usize, b: usize) -> Case {
    Case { op, a: a as u32, b: b as u32, room: 4096, payload: text.into(), ..Case::default() }
}

/// The records of an answer, without the head line, whose answer is 0 and whose count fits.
fn records_of(answer: &str, op: u8, text: &str) -> Vec<String> {
    let mut lines = answer.lines().map(str::to_string);
    let head = lines.next().unwrap();
    let rest: Vec<String> = lines.collect();
    assert_eq!(head, format!("{} 0 {}", op as char, rest.len()), "{text:?}");
    rest
}

fn records(op: u8, text: &str, a: usize, b: usize) -> Vec<String> {
    records_of(&run(&span_case(op, text, a, b)), op, text)
}

fn events(text: &str, want: &[&str]) {
    assert_eq!(records(b'E', text, 0, text.len()), want, "{text:?}");
}

fn credits(text: &str, want: &[&str]) {
    assert_eq!(records(b'P', text, 0, text.len()), want, "{text:?}");
}

/// The links of a text, whole, against labels that are given as ends and bytes.
fn links(ends: &[u32], names: &str, text: &str, want: &[&str]) {
    let mut tables = Tables::default();
    run_with(&mut tables, &table(2, ends, names.as_bytes()));
    let answer = run_with(&mut tables, &span_case(b'H', text, 0, text.len()));
    assert_eq!(records_of(&answer, b'H', text), want, "{text:?}");
}

fn date(text: &str, want: &str) {
    assert_eq!(run(&Case { op: b'D', payload: text.into(), ..Case::default() }), format!("D {want}\n"), "{text:?}");
}

#[test]
fn short_comments() {
    events("", &[]);
    events("[]", &["14 1 1 1 1"]);
    events("[a ]", &["1 0 0 4 1"]);
    events("~", &["6 0 1 1 1"]);
    events("~ mmx", &["7 0 2 5 1"]);
    events("( `a` )", &["1 0 0 1 1", "3 2 2 2 1", "5 3 3 4 1", "4 4 4 4 1", "1 6 6 7 1"]);
}

/// The one sample with lines: an LF at a record's own place is not before it.
#[test]
fn three_line_feeds() {
    events("\n\n\n", &["1 0 0 1 1", "2 1 1 1 2", "1 1 1 2 2", "2 2 2 2 3", "1 2 2 3 3"]);
    assert_eq!(records(b'E', "\n\n\n", 2, 3), ["1 2 2 3 3"]);
}

#[test]
fn subscript_over_math() {
    let want =
        ["1 0 0 1 1", "10 1 1 1 1", "1 2 2 3 1", "3 3 3 3 1", "5 4 4 5 1", "11 5 5 5 1", "5 5 5 7 1", "4 7 7 7 1"];
    events("x_0`b.c`", &want);
}

#[test]
fn byte_before_the_span() {
    assert_eq!(records(b'E', "a_b_", 1, 4), ["10 1 1 1 1", "1 2 2 3 1", "11 3 3 3 1", "1 3 3 4 1"]);
    assert_eq!(records(b'E', " _b_", 1, 4), ["12 1 1 1 1", "1 2 2 3 1", "13 3 3 3 1"]);
}

#[test]
fn dates() {
    date("+5xFebx+123", "0 123 2 5 1");
    date("+-Jan-2020", "5");
    date("1-Jan-202", "5");
    date("01-Jan-20201", "5");
}

/// Each is read; the last number is the calendar check's.
#[test]
fn centuries() {
    date("28-Feb-1900", "0 1900 2 28 1");
    date("29-Feb-1900", "0 1900 2 29 0");
    date("28-Feb-2100", "0 2100 2 28 1");
    date("29-Feb-2100", "0 2100 2 29 0");
    date("29-Feb-2000", "0 2000 2 29 1");
    date("30-Feb-2000", "0 2000 2 30 0");
    date("29-Feb-0000", "0 0 2 29 1");
    date("30-Feb-0000", "0 0 2 30 0");
}

#[test]
fn credit_samples() {
    let slipped = "(Contributed by Ann (Revised by Bob, 2-Feb-2020.)";
    credits(slipped, &["1 0 49 16 35 37 47"]);
    credits("(Contributed by  , 1-Jan-2020.)", &["1 0 31 16 17 19 29"]);
    credits("(Contributed by , 1-Jan-2020.)", &[]);
}

#[test]
fn escape_past_the_span() {
    assert_eq!(records(b'C', "a__", 0, 2), Vec::<String>::new());
    assert_eq!(records(b'C', "a_", 0, 2), ["2 1 0 0 1"]);
}

/// Request P5's: without a bibliography a tag is undefined; by the named choice it is not looked up.
#[test]
fn tags_without_a_bibliography() {
    let case = span_case(b'C', "[a]", 0, 3);
    assert_eq!(run(&case), "C 0 1\n8 1 2 0 1\n");
    assert_eq!(run(&Case { flag: NO_TAG_LOOKUP, ..case }), "C 0 0\n");
}

/// After Text(0,4) the mode has turned: the parser's own call keeps both underscores.
#[test]
fn unescape_after_the_mode_turned() {
    let text = b"a__b<HTML>";
    let state = |words: [u32; 10]| words.iter().flat_map(|w| w.to_le_bytes()).collect::<Vec<u8>>();
    let fresh = state([10, 0, 0, 0, 0, 0, 0, 0, u32::MAX, 0]);
    let step = Case { op: b'S', c: 1, payload: [&fresh[..], text].concat(), ..Case::default() };
    assert_eq!(run(&step), "S 0 1 0\n1 0 0 4\nstate 10 10 0 1 8 4 4 4 4294967295 0\n");
    let turned = state([10, 10, 0, 1, 8, 4, 4, 4, u32::MAX, 0]);
    let payload = [&turned[..], text].concat();
    let call = Case { op: b'V', b: 4, room: 16, payload, ..Case::default() };
    assert_eq!(run(&call), "V 0 4 615f5f62\n");
    let plain = Case { op: b'U', b: 4, room: 16, payload: text.to_vec(), ..Case::default() };
    assert_eq!(run(&plain), "U 0 3 615f62\n");
}

#[test]
fn listing() {
    let want = ["1 0 0 1 1", "10 1 1 1 1", "1 2 2 3 1", "11 3 3 3 1", "1 3 3 4 1", "6 4 6 11 1"];
    events("x_0 ~ ax-1.", &want);
}

/// Request P6's: 1 plus the LF bytes of the buffer before the place; of a diagnostic, before its first number.
#[test]
fn lines() {
    assert_eq!(records(b'E', "\n\r\n x_0", 4, 7), ["1 4 4 5 3", "10 5 5 5 3", "1 6 6 7 3", "11 7 7 7 3"]);
    assert_eq!(records(b'E', "a\n~\n\nb\n", 2, 7), ["6 2 5 6 2", "1 6 6 7 4"]);
    assert_eq!(records(b'C', "\n<html>\n_\n_", 1, 11), ["2 8 0 0 3", "2 10 0 0 4", "3 1 7 0 2"]);
    let open = ["4 11 12 0 5", "9 8 12 0 3", "10 1 12 0 2"];
    assert_eq!(records(b'C', "\n<HTML>\n`\n\nb\n", 1, 12), open);
}

/// Request P4's: start and end of a label, and its entry.
#[test]
fn links_of_a_comment() {
    links(&[1, 4, 8], "aa[bax-1", "~ ax-1 ~ a[[b ~ b", &["2 6 2", "9 13 1"]);
    links(&[3], "mmx", "~ mmx", &[]);
    links(&[0, 1], "a", "~", &["1 1 0"]);
    links(&[1], "a", "~", &[]);
}

/// The records of a whole text in both readings.
fn in_both(op: u8, text: &str, rust: &[&str], strict: &[&str]) {
    for (reading, want) in [(0, rust), (STRICT, strict)] {
        let case = Case { reading, ..span_case(op, text, 0, text.len()) };
        assert_eq!(records_of(&run(&case), op, text), want, "{text:?}, reading {reading}");
    }
}

/// Request P8's: the Rust's reading, and the strict one.
#[test]
fn events_in_both_readings() {
    let start = ["1 0 0 1 1", "10 1 1 1 1"];
    let math = ["1 2 2 3 1", "3 3 3 3 1", "5 4 4 5 1", "11 5 5 5 1", "5 5 5 7 1", "4 7 7 7 1"];
    let strict_math = ["1 2 2 3 1", "11 3 3 3 1", "3 3 3 3 1", "5 4 4 7 1", "4 7 7 7 1"];
    in_both(b'E', "x_0`b.c`", &[&start[..], &math].concat(), &[&start[..], &strict_math].concat());
    in_both(b'E', "x_[a]", &[&start[..], &["14 3 3 4 1"]].concat(), &["1 0 0 2 1", "14 3 3 4 1"]);
    in_both(b'E', "a_~b", &[&start[..], &["6 2 3 4 1"]].concat(), &["1 0 0 2 1", "6 2 3 4 1"]);
    in_both(b'E', "x_<HTML>", &[&start[..], &["8 2 2 2 1"]].concat(), &["1 0 0 2 1", "8 2 2 2 1"]);
    let (doubled, strict_doubled) = (["1 2 2 6 1", "11 6 6 6 1"], ["1 2 2 3 1", "11 3 3 3 1", "1 3 3 6 1"]);
    in_both(b'E', "x_a``b", &[&start[..], &doubled].concat(), &[&start[..], &strict_doubled].concat());
    let label = ["1 0 0 1 1", "12 1 1 1 1", "1 2 2 3 1", "6 3 4 6 1", "1 6 6 7 1"];
    in_both(b'E', " _a~b_ ", &label, &["1 0 0 3 1", "6 3 4 6 1", "1 6 6 7 1"]);
    let italic = ["1 0 0 1 1", "12 1 1 1 1", "1 2 2 5 1", "13 5 5 5 1", "1 6 6 7 1"];
    in_both(b'E', " _a<b_ ", &italic, &["1 0 0 7 1"]);
}

/// Ann's credit is open: in the strict reading Bob's is found, and hers is not.
#[test]
fn credits_in_both_readings() {
    let slipped = "(Contributed by Ann (Revised by Bob, 2-Feb-2020.)";
    in_both(b'P', slipped, &["1 0 49 16 35 37 47"], &["2 20 49 32 35 37 47"]);
    let longer = "(Contributed by Ann (Revised by Bob, 12-Mar-2020.)";
    in_both(b'P', longer, &["1 0 50 16 35 37 48"], &["2 20 50 32 35 37 48"]);
    let closed = "(Contributed by Ann, 2-Feb-2020.)";
    in_both(b'P', closed, &["1 0 33 16 19 21 31"], &["1 0 33 16 19 21 31"]);
}
