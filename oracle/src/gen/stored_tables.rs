//! The stored cases of the ops that read lent tables: N and C, with the T that they need.
use super::sink::{span_case, table, Sink};
use super::stored_comments::comments;
use super::texts::{each_sequence, each_span};
use crate::cases::{Case, CHECK_FLAGS};
use crate::lines::LINED_WIDTH;

/// Each diagnostic kind alone, in order, against the tables of `lend_few`.
const ALONE: &[&str] = &["` a`", "a_ b", "<html>", "` c `", "~", "~ b", "[a``b]", "[B]", "` a ", "<HTML>"];

/// All ten kinds in one comment.
const TOGETHER: &str = "`c ` x_ y <html> ~ [a``B] ~ d <HTML> ` a";

/// Tags: found in the bibliography of `lend_few` or not, empty, with escapes, and where other marks stand. Last no tag.
const TAGGED: &[&str] = &[
    "[a]",
    "[B]",
    "[]",
    "[A] [b] [a] [B]",
    "[a``b] [a``c] [a~]",
    "~ a[A] ~ a[B] ~ [B]",
    "<HTML>[A] [B]</HTML>",
    "x_[A] y_[B]. _a [B] c_",
    "` [B] ` [[B] [B ] [B",
];

fn lend_few(sink: &mut Sink) {
    sink.lend(1, &["a", "b", "a`b"]);
    sink.lend(2, &["a", "ax-1", "a[b"]);
    sink.lend(3, &["A", "a", "a``b"]);
}

/// Tables that are malformed, in each way at the first, a middle and the last entry, where it can stand there.
pub const MALFORMED: &[(&[u32], &[u8])] = &[
    // an end past the bytes
    (&[6, 2, 3, 4, 5], b"abcde"),
    (&[1, 2, 6, 4, 5], b"abcde"),
    (&[1, 2, 3, 4, 6], b"abcde"),
    (&[u32::MAX], b"a"),
    (&[1], b""),
    // an end below the one before, also 0
    (&[2, 1, 3, 4, 5], b"abcde"),
    (&[1, 2, 1, 4, 5], b"abcde"),
    (&[1, 2, 3, 4, 3], b"abcde"),
    (&[1, 0], b"a"),
    // a name that is the one before, also the empty one
    (&[1, 2, 3, 4, 5], b"aacde"),
    (&[1, 2, 3, 4, 5], b"abbde"),
    (&[1, 2, 3, 4, 5], b"abcdd"),
    (&[0, 0, 1], b"a"),
    (&[1, 2, 2, 3], b"abc"),
    (&[1, 1], b"a"),
    // a name below the one before, also as its front
    (&[1, 2, 3, 4, 5], b"bacde"),
    (&[1, 2, 3, 4, 5], b"acbde"),
    (&[1, 2, 3, 4, 5], b"abcda"),
    (&[2, 3, 4], b"abac"),
    (&[1, 2, 3], b"a\xff\x7f"),
    // bytes behind the last end: the bad entry is the count
    (&[1, 2, 3], b"abcd"),
    (&[1], b"ab"),
    (&[0], b"a"),
    (&[], b"a"),
    // two entries bad: the first counts
    (&[1, 1, 9], b"ab"),
    (&[9, 1, 0], b"ab"),
];

/// Tables that are not: no name, the empty name, the empty name first, one name, names that begin each other.
const WELL_FORMED: &[(&[u32], &[u8])] =
    &[(&[], b""), (&[0], b""), (&[0, 1], b"a"), (&[1], b"a"), (&[1, 3, 6, 8], b"aababcac"), (&[1, 2], b"\x7f\x80")];

/// Names that tell their own entry: `n000`, `n001` and so on.
pub fn numbered(count: usize) -> Vec<String> {
    (0..count).map(|entry| format!("n{entry:03}")).collect()
}

pub fn lookups(sink: &mut Sink) {
    let look = |sink: &mut Sink, flag: u8, text: &[u8]| {
        sink.put(&Case { op: b'N', flag, payload: text.to_vec(), ..Case::default() });
    };
    for flag in 1..=3 {
        look(sink, flag, b"");
        look(sink, flag, b"a");
        sink.lend(flag, &["", "a", "ab", "b", "\u{e9}"]);
        for text in ["", "a", "ab", "abc", "b", "c", "\u{e9}", "A"] {
            look(sink, flag, text.as_bytes());
        }
    }
    // entries of one, two and three digits, and on both sides of 256
    for flag in 1..=3 {
        sink.lend(flag, &numbered(300));
        for text in ["n000", "n009", "n010", "n099", "n100", "n255", "n256", "n299", "n300", "n"] {
            look(sink, flag, text.as_bytes());
        }
    }
    sink.lend_no_bibliography();
    look(sink, 3, b"a");
    // `a` is not looked at, and the payload is passed over
    sink.put(&Case { op: b'T', a: u32::MAX, payload: vec![b'a'; 9], ..Case::default() });
    look(sink, 3, b"a");
    for (ends, names) in WELL_FORMED {
        sink.put(&table(1, ends, names));
        for text in [&b""[..], b"a", b"aa", b"ab", b"abc", b"abcd", b"ac", b"b", b"\x7f", b"\x80", b"\xff"] {
            look(sink, 1, text);
        }
    }
    for flag in 1..=3 {
        for (ends, names) in MALFORMED {
            sink.put(&table(flag, ends, names));
            look(sink, flag, b"a");
        }
    }
}

pub fn checks(sink: &mut Sink) {
    let put = |sink: &mut Sink, text: &str, a: usize, b: usize, room: u32| {
        sink.put(&Case { room, ..span_case(b'C', text.as_bytes(), a, b) });
    };
    // nothing lent yet, and empty tables
    for text in ["` a ` ~ a [a] ~ ", TOGETHER] {
        put(sink, text, 0, text.len(), 64);
    }
    for flag in 1..=3 {
        sink.put(&table(flag, &[], b""));
    }
    put(sink, TOGETHER, 0, TOGETHER.len(), 64);
    // the empty name: a tag may be that, a label is not looked up
    for flag in 1..=3 {
        sink.put(&table(flag, &[0, 1], b"a"));
    }
    put(sink, "[] ~ ` a `", 0, 10, 64);
    lend_few(sink);
    for text in ALONE {
        sink.put_every_room(span_case(b'C', text.as_bytes(), 0, text.len()));
    }
    each_span(TOGETHER.len(), &mut |a, b| {
        if a == 0 || b == TOGETHER.len() {
            put(sink, TOGETHER, a, b, 64);
        }
    });
    for room in 0..=12 * LINED_WIDTH {
        put(sink, TOGETHER, 0, TOGETHER.len(), room);
    }
    for text in comments() {
        put(sink, text, 0, text.len(), 128);
    }
    for text in [
        "` a b c `",
        "` a``b `",
        "`a`",
        "x` a `y",
        "x~ a",
        "~a",
        "~ ",
        "~ b",
        "~ a[[b",
        "~ a~b",
        "~ a`",
        "[B]",
        "[a~b]",
        "[`` ]",
        "[a``]",
        "<HTML>",
        "` a",
        "<HTML>` a",
        "<HtMl> </html>",
        "~ <Html>x",
        "a_b ~~ ` x` _",
        "<HTML>_ a</HTML>_ ",
    ] {
        put(sink, text, 0, text.len(), 64);
    }
    // spans that end before, in or behind a doubled escape
    for escape in ["`", "~", "[", "_"] {
        let text = format!("{0}{0} a{0}{0}b ~ a{0}{0} ` a{0}{0}", escape);
        for b in 0..=text.len() {
            put(sink, &text, 0, b, 64);
            put(sink, &text, b, text.len(), 64);
        }
    }
    each_sequence(&[b"_", b"`", b"a"], 3, &mut |text| {
        each_span(text.len(), &mut |a, b| sink.put(&Case { room: 64, ..span_case(b'C', text, a, b) }));
    });
    sink.lend_no_bibliography();
    put(sink, "[B] [b~]", 0, 8, 64);
    tags(sink);
    malformed(sink);
}

/// Tags by both flags: with a bibliography, with an empty one and without one.
fn tags(sink: &mut Sink) {
    let bibliographies: [fn(&mut Sink); 3] =
        [lend_few, |sink| sink.put(&table(3, &[], b"")), |sink| sink.lend_no_bibliography()];
    for lend in bibliographies {
        lend(sink);
        for flag in CHECK_FLAGS {
            for text in TAGGED.iter().chain([&TOGETHER]) {
                sink.put(&Case { flag, room: 64, ..span_case(b'C', text.as_bytes(), 0, text.len()) });
            }
            // every room, where 8 is all there is
            for room in 0..=2 * LINED_WIDTH + 1 {
                sink.put(&Case { flag, room, ..span_case(b'C', b"[B] [b]", 0, 7) });
            }
        }
    }
}

/// Each malformed table, and several at once, by both flags: the lowest counts, and a span that is none counts before all.
fn malformed(sink: &mut Sink) {
    let put = |sink: &mut Sink, a: usize, b: usize, room: u32| {
        for flag in CHECK_FLAGS {
            sink.put(&Case { flag, room, ..span_case(b'C', b"` c ` [B]", a, b) });
        }
    };
    for flag in 1..=3 {
        for (ends, names) in MALFORMED {
            lend_few(sink);
            sink.put(&table(flag, ends, names));
            put(sink, 0, 9, 16);
        }
    }
    for bad in 0..8 {
        lend_few(sink);
        for flag in (1..=3).filter(|flag| bad >> (flag - 1) & 1 == 1) {
            let (ends, names) = MALFORMED[5 + flag as usize];
            sink.put(&table(flag, ends, names));
        }
        for (a, b, room) in [(0, 9, 16), (0, 9, 0), (0, 10, 16), (5, 4, 16)] {
            put(sink, a, b, room);
        }
        sink.lend_no_bibliography();
        put(sink, 0, 9, 16);
    }
}
