//! What each op answers. Refusals come first and are document 01's; where none applies the crate is called.
use crate::answers::{self, line, Out};
use crate::cases::{Case, NO_TAG_LOOKUP};
use crate::comment_parser::{CommentItem, Date, Discouragements, Parenthetical};
use crate::diag::Diagnostic;
use crate::lent::{Bibliography, Database};
use crate::lines::Lines;
use crate::parser::is_valid_label;
use crate::readings::{check_comment, Parentheticals, Parser};
use crate::rooms::{lay, write_text};
use crate::states::{event_words, State, STATE_BYTES};
use crate::tables::{Names, Tables};
use crate::verify_markup::is_reserved_name;
use crate::Span;

/// Answers one case; `None` if it is none.
pub fn answer(case: &Case, tables: &mut Tables, out: &mut Out) -> Option<()> {
    match case.op {
        b'T' => tables.lend(case.flag, case.a, &case.payload),
        b'E' => events(case, out),
        b'S' => steps(case, out)?,
        b'P' => parentheticals(case, out),
        b'Q' => parentheticals_by_step(case, out),
        b'F' => flags(case, out),
        b'D' => read_date(case, out),
        b'K' => yes_no(out, "K", is_calendar_date(case.a, case.b, case.c)),
        b'O' => order(case, out),
        b'W' => write_date(case, out),
        b'U' => unescape(case, out),
        b'V' => parser_unescape(case, out)?,
        b'L' => yes_no(out, "L", is_valid_label(&case.payload)),
        b'R' => yes_no(out, "R", is_reserved_name(&case.payload)),
        b'N' => look_up(case, tables, out),
        b'C' => check(case, tables, out),
        b'H' => links(case, tables, out),
        _ => return None,
    }
    Some(())
}

fn yes_no(out: &mut Out, op: &str, yes: bool) {
    line(out, op, &[0, u32::from(yes)]);
}

/// The span of a case; none gives 2.
fn span_of(case: &Case, buf: &[u8]) -> Option<Span> {
    (case.a <= case.b && case.b as usize <= buf.len()).then(|| Span::new2(case.a, case.b))
}

fn events(case: &Case, out: &mut Out) {
    let buf = &case.payload;
    let Some(span) = span_of(case, buf) else { return line(out, "E", &[2, 0]) };
    let lines = Lines::of(buf);
    let events = Parser::new(case.reading(), buf, span);
    let list: Vec<_> = events.map(event_words).map(|words| lines.record(words)).collect();
    answers::list(out, "E", &lay(&list, case.room));
}

fn steps(case: &Case, out: &mut Out) -> Option<()> {
    let state = State::read(&case.payload)?;
    let buf = &case.payload[STATE_BYTES as usize..];
    let mut given: Vec<u32> = vec![];
    let (mut answer, mut ended, mut last) = (0, 0, state);
    if case.c > 0 && !state.fits(buf) {
        answer = 3;
    } else if case.c > 0 {
        let mut parser = state.parser(case.reading(), buf);
        for _ in 0..case.c {
            match parser.next() {
                Some(item) => given.extend(event_words(item)),
                None => {
                    ended = 1;
                    break;
                }
            }
        }
        last = state.after(&parser);
    }
    line(out, "S", &[answer, given.len() as u32 / 4, ended]);
    answers::records(out, &given, 4);
    line(out, "state", &last.words());
    Some(())
}

/// The seven words of a parenthetical.
fn parenthetical_words((whole, item): (Span, Parenthetical)) -> [u32; 7] {
    let credit =
        |kind, author: Span, date: Span| [kind, whole.start, whole.end, author.start, author.end, date.start, date.end];
    match item {
        Parenthetical::ContributedBy { author, date } => credit(1, author, date),
        Parenthetical::RevisedBy { author, date } => credit(2, author, date),
        Parenthetical::ProofShortenedBy { author, date } => credit(3, author, date),
        Parenthetical::ProofModificationDiscouraged => credit(4, Span::NULL, Span::NULL),
        Parenthetical::NewUsageDiscouraged => credit(5, Span::NULL, Span::NULL),
    }
}

fn parentheticals(case: &Case, out: &mut Out) {
    let Some(span) = span_of(case, &case.payload) else { return line(out, "P", &[2, 0]) };
    let found = Parentheticals::new(case.reading(), &case.payload, span);
    let list: Vec<[u32; 7]> = found.map(parenthetical_words).collect();
    answers::list(out, "P", &lay(&list, case.room));
}

fn parentheticals_by_step(case: &Case, out: &mut Out) {
    let Some(span) = span_of(case, &case.payload) else { return line(out, "Q", &[2, 0, 0]) };
    let mut search = Parentheticals::new(case.reading(), &case.payload, span);
    let mut given: Vec<u32> = vec![];
    let mut ended = 0;
    for _ in 0..case.c {
        match search.next() {
            Some(item) => given.extend(parenthetical_words(item)),
            None => {
                ended = 1;
                break;
            }
        }
    }
    line(out, "Q", &[0, given.len() as u32 / 7, ended]);
    answers::records(out, &given, 7);
}

fn flags(case: &Case, out: &mut Out) {
    let found = Discouragements::new(&case.payload);
    let numbers = [0, u32::from(found.modification_discouraged), u32::from(found.usage_discouraged)];
    line(out, "F", &numbers);
}

fn read_date(case: &Case, out: &mut Out) {
    match Date::try_from(&case.payload[..]) {
        Ok(date) => {
            let (year, month, day) = (u32::from(date.year), u32::from(date.month), u32::from(date.day));
            line(out, "D", &[0, year, month, day, u32::from(is_calendar_date(year, month, day))]);
        }
        Err(()) => line(out, "D", &[5]),
    }
}

/// The calendar check. The crate has none: this is document 01's sentence.
fn is_calendar_date(year: u32, month: u32, day: u32) -> bool {
    let length = match month {
        1 | 3 | 5 | 7 | 8 | 10 | 12 => 31,
        4 | 6 | 9 | 11 => 30,
        2 if is_leap(year) => 29,
        2 => 28,
        _ => 0,
    };
    1 <= day && day <= length
}

/// A year divisible by four has the extra day, unless it is divisible by 100 and not by 400.
fn is_leap(year: u32) -> bool {
    year % 4 == 0 && (year % 100 != 0 || year % 400 == 0)
}

/// The date that op O packs into one number.
fn packed_date(n: u32) -> Date {
    Date { year: (n >> 16) as u16, month: (n >> 8) as u8, day: n as u8 }
}

fn order(case: &Case, out: &mut Out) {
    let number = match packed_date(case.a).cmp(&packed_date(case.b)) {
        std::cmp::Ordering::Less => 1,
        std::cmp::Ordering::Equal => 2,
        std::cmp::Ordering::Greater => 3,
    };
    line(out, "O", &[0, number]);
}

fn write_date(case: &Case, out: &mut Out) {
    if !(1..=12).contains(&case.b) {
        return line(out, "W", &[6]);
    }
    let date = Date { year: case.a as u16, month: case.b as u8, day: case.c as u8 };
    answers::text(out, "W", &write_text(date.to_string().as_bytes(), case.room));
}

fn unescape(case: &Case, out: &mut Out) {
    let Some(span) = span_of(case, &case.payload) else { return line(out, "U", &[2]) };
    let text = span.as_ref(&case.payload);
    let mut plain = vec![];
    match case.flag {
        0 => CommentItem::unescape_text(false, text, &mut plain),
        1 => CommentItem::unescape_text(true, text, &mut plain),
        2 => CommentItem::unescape_label(text, &mut plain),
        _ => CommentItem::unescape_math(text, &mut plain),
    }
    answers::text(out, "U", &write_text(&plain, case.room));
}

fn parser_unescape(case: &Case, out: &mut Out) -> Option<()> {
    let state = State::read(&case.payload)?;
    let buf = &case.payload[STATE_BYTES as usize..];
    let span = match span_of(case, buf) {
        Some(span) if span.end <= state.end => span,
        _ => {
            line(out, "V", &[2]);
            return Some(());
        }
    };
    if !state.fits(buf) {
        line(out, "V", &[3]);
        return Some(());
    }
    let parser = state.parser(case.reading(), buf);
    let mut plain = vec![];
    match case.flag {
        0 => parser.unescape_text(span, &mut plain),
        2 => parser.unescape_label(span, &mut plain),
        _ => parser.unescape_math(span, &mut plain),
    }
    answers::text(out, "V", &write_text(&plain, case.room));
    Some(())
}

fn look_up(case: &Case, tables: &Tables, out: &mut Out) {
    let Some(names) = tables.get(case.flag) else { return line(out, "N", &[0, 0]) };
    if let Some(entry) = names.first_bad() {
        return line(out, "N", &[4, 1, entry as u32]);
    }
    match names.entry(&case.payload) {
        Some(entry) => line(out, "N", &[0, 1, entry as u32]),
        None => line(out, "N", &[0, 0]),
    }
}

/// The four words of a diagnostic, without its line.
fn diagnostic_words(d: &Diagnostic) -> [u32; 4] {
    match *d {
        Diagnostic::MarkupNeedsWhitespace(at) => [1, at, 0, 0],
        Diagnostic::UninterpretedEscape(at) => [2, at, 0, 0],
        Diagnostic::UninterpretedHtml(sp) => [3, sp.start, sp.end, 0],
        Diagnostic::UndefinedToken(sp, _) => [4, sp.start, sp.end, 0],
        Diagnostic::EmptyLabel(at) => [5, at, 0, 0],
        Diagnostic::UnknownLabel(sp) => [6, sp.start, sp.end, 0],
        Diagnostic::BibEscape(at, sp) => [7, at, sp.start, sp.end],
        Diagnostic::UndefinedBibTag(sp) => [8, sp.start, sp.end, 0],
        Diagnostic::UnclosedMathMarkup(at, end) => [9, at, end, 0],
        Diagnostic::UnclosedHtml(at, end) => [10, at, end, 0],
    }
}

/// The check. Where no bibliography is lent the crate is given an empty one; by the named choice it is given none.
fn check(case: &Case, tables: &Tables, out: &mut Out) {
    let buf = &case.payload;
    let Some(span) = span_of(case, buf) else { return line(out, "C", &[2, 0]) };
    let looks_up_tags = case.flag != NO_TAG_LOOKUP;
    if let Some((table, entry)) = tables.first_bad(if looks_up_tags { 3 } else { 2 }) {
        return line(out, "C", &[4, u32::from(table), entry as u32]);
    }
    let db = Database { symbols: &tables.symbols, labels: &tables.labels };
    let empty = Names::default();
    let tags = tables.bibliography.as_ref().unwrap_or(&empty);
    let bib = looks_up_tags.then_some(Bibliography(tags));
    let found = check_comment(case.reading(), &db, bib.as_ref(), buf, span);
    let lines = Lines::of(buf);
    let list: Vec<_> = found.iter().map(diagnostic_words).map(|words| lines.record(words)).collect();
    answers::list(out, "C", &lay(&list, case.room));
}

/// The three words of a link; none if the event is no Label, or its unescaped text no name of the table.
fn link_words(item: CommentItem, buf: &[u8], labels: &Names) -> Option<[u32; 3]> {
    let CommentItem::Label(_, span) = item else { return None };
    let mut text = vec![];
    CommentItem::unescape_label(span.as_ref(buf), &mut text);
    let entry = labels.entry(&text)?;
    Some([span.start, span.end, entry as u32])
}

/// The links. The crate has no such list: the events and the unescaping are its own, the lookup is ours.
fn links(case: &Case, tables: &Tables, out: &mut Out) {
    let buf = &case.payload;
    let Some(span) = span_of(case, buf) else { return line(out, "H", &[2, 0]) };
    let labels = &tables.labels;
    if let Some(entry) = labels.first_bad() {
        return line(out, "H", &[4, 1, entry as u32]);
    }
    let events = Parser::new(case.reading(), buf, span);
    let list: Vec<[u32; 3]> = events.filter_map(|item| link_words(item, buf, labels)).collect();
    answers::list(out, "H", &lay(&list, case.room));
}
