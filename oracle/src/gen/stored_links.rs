//! The stored cases of op H, the links, with the T that they need.
use super::sink::{span_case, table, Sink};
use super::stored_tables::{numbered, MALFORMED};
use super::texts::each_span;
use crate::cases::Case;

/// Labels with escapes in them, lone and doubled, and what a Url may say.
const LABELS: &[&str] =
    &["a", "a[", "a[b", "a`b", "a~b", "ax-1", "b[[c", "b``c", "b~~c", "http://a", "https://a", "m", "mm", "mmx"];

const COMMENTS: &[&str] = &[
    // found and not found, one and several, the same twice, entries up and down
    "~ a",
    "~a",
    "~ b",
    "~ ax-1",
    "~ ax-1 ~ a[[b ~ b",
    "~ ax-1 ~ a ~ ax-1",
    "~ b ~ a ~ b ~ m ~ ax-11",
    "~ A ~ ax-1. ~ ax-1 .",
    // what ends a label, and what does not
    "( ~ a )",
    "~ a\n~ a\r~ a\t~ a",
    "~ a[A] ~ a[A ~ a",
    "~ a` ~ a ` ~ a`b",
    "~ a<HTML>~ a</HTML>~ a<html> ~ a",
    "<HTML> ~ a ~ b </HTML>",
    "_a ~ a_ b_ x_~ a",
    // no label: a doubled tilde, a tag, math
    "~~ a",
    "[a] ` ~ a `",
    // found by the unescaped text alone, by the text as it stands alone, and with a lone escape
    "~ a[[b",
    "~ a``b",
    "~ a~~b",
    "~ b[[c",
    "~ b``c",
    "~ b~~c",
    "~ b[[[[c ~ b````c ~ b~~~~c",
    "~ a[b",
    "~ a~b",
    "~ a[[[b ~ a[ ~ a[[",
    // a Url has no link, though its text is a name
    "~ mmx",
    "~ mm",
    "~ m",
    "~ http://a",
    "~ https://a",
    "~ mmx ~ a ~ http://a ~ m",
];

/// Labels that are empty, alone and among others.
const EMPTY: &[&str] = &["~", "~ ", "~ [A]", "~ ` a `", "~<HTML>", "~ </HTML>", "~ a ~", "~ ` ` ~ a ~[A] ~ b ~\n"];

fn put(sink: &mut Sink, text: &str, a: usize, b: usize, room: u32) {
    sink.put(&Case { room, ..span_case(b'H', text.as_bytes(), a, b) });
}

fn put_whole(sink: &mut Sink, text: &str) {
    put(sink, text, 0, text.len(), 64);
}

pub fn links(sink: &mut Sink) {
    // no name at all
    sink.put(&table(2, &[], b""));
    put_whole(sink, "~ a ~");
    // the empty name, alone and first; then none
    sink.put(&table(2, &[0], b""));
    put_whole(sink, "~ a ~");
    sink.lend(2, &["", "a", "ax-1"]);
    EMPTY.iter().for_each(|text| put_whole(sink, text));
    sink.lend(2, LABELS);
    EMPTY.iter().for_each(|text| put_whole(sink, text));
    COMMENTS.iter().for_each(|text| put_whole(sink, text));
    // every room, to more than enough
    for room in 0..=12 {
        put(sink, "~ a ~ ax-1 ~ b ~ a[[b", 0, 21, room);
        put(sink, "~ b", 0, 3, room);
    }
    // every span: of two labels, and of a doubled escape
    for text in ["~ a ~ ax-1", "~ a[[b"] {
        each_span(text.len(), &mut |a, b| put(sink, text, a, b, 6));
    }
    refused_spans(sink);
    // entries of one, two and three digits, and on both sides of 256
    sink.lend(2, &numbered(300));
    put_whole(sink, "~ n256 ~ n255 ~ n000 ~ n009 ~ n010 ~ n099 ~ n100 ~ n299 ~ n300 ~ n");
    malformed(sink);
}

fn refused_spans(sink: &mut Sink) {
    const MOST: usize = u32::MAX as usize;
    for (a, b) in [(1, 0), (3, 2), (0, 4), (4, 4), (MOST, 0), (0, MOST), (MOST, MOST)] {
        for room in [0, 3] {
            put(sink, "~ a", a, b, room);
        }
    }
}

/// The labels are lent alone, so they are table 1 in the answer; the other tables are not looked at.
fn malformed(sink: &mut Sink) {
    let ask = |sink: &mut Sink, room: u32| put(sink, "~ a ~ b", 0, 7, room);
    for (ends, names) in MALFORMED {
        sink.put(&table(2, ends, names));
        ask(sink, 6);
    }
    // a malformed table comes before a short room, and a span that is none before both
    ask(sink, 0);
    refused_spans(sink);
    // the others malformed, beside good labels and bad ones
    let (ends, names) = MALFORMED[5];
    for number in [1, 3] {
        sink.put(&table(number, ends, names));
        ask(sink, 6);
        sink.lend(2, LABELS);
        ask(sink, 6);
        ask(sink, 0);
        let (ends, names) = MALFORMED[7];
        sink.put(&table(2, ends, names));
        ask(sink, 6);
    }
    // no bibliography, and good symbols: the labels still bad
    sink.lend_no_bibliography();
    sink.lend(1, &["a"]);
    ask(sink, 6);
    sink.lend(2, &["a", "b"]);
    ask(sink, 6);
}
