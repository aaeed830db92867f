//! Two runs' answers held against each other, case by case, and counted by op, answer, and kind of what was answered.
use crate::answers::hex;
use crate::cases::{Case, Next, NO_TAG_LOOKUP, READING_OPS};
use std::collections::BTreeMap;

/// How many answers there were of each sort: op, what is counted, its value.
pub type Tally = BTreeMap<(char, &'static str, u64), u64>;

/// The first case that two runs answer differently.
pub struct Difference {
    /// The case's number in its stream, from 0.
    pub number: usize,
    pub case: Case,
    /// The tables that stood, as T cases, oldest first.
    pub tables: Vec<Case>,
    pub left: Option<Vec<u8>>,
    pub right: Option<Vec<u8>>,
}

/// Holds both runs' answers to the cases against each other. Counts the left one's, up to the first difference.
pub fn hold(mut cases: &[u8], left: &[u8], right: &[u8]) -> (Tally, Option<Difference>) {
    let mut tally = Tally::new();
    let (mut left, mut right) = (Answers(left), Answers(right));
    let mut tables: BTreeMap<u8, Case> = BTreeMap::new();
    for number in 0.. {
        let mut case = Case::default();
        match case.read(&mut cases).expect("a slice can be read") {
            Next::Case if case.op == b'T' => {
                // taking the bibliography away is kept under the bibliography's own number
                tables.insert(if case.flag == 0 { 3 } else { case.flag }, case);
                continue;
            }
            Next::Case => {}
            // past the last case, and at a bad one, both runs have to say the same too
            Next::End | Next::Bad => {}
        }
        let (l, r) = (left.next(), right.next());
        if l != r {
            let tables = tables.into_values().collect();
            let owned = |a: Option<&[u8]>| a.map(<[u8]>::to_vec);
            return (tally, Some(Difference { number, case, tables, left: owned(l), right: owned(r) }));
        }
        match l {
            Some(answer) => count(&mut tally, &case, tags_of(&case, &tables), answer),
            None => break,
        }
    }
    (tally, None)
}

/// Answers one by one: a head line and the lines behind it.
struct Answers<'a>(&'a [u8]);

impl<'a> Answers<'a> {
    fn next(&mut self) -> Option<&'a [u8]> {
        if self.0.is_empty() {
            return None;
        }
        let is_head = |rest: &[u8]| rest.first().is_some_and(u8::is_ascii_uppercase) || rest.starts_with(b"bad case");
        let mut at = 0;
        loop {
            at += self.0[at..].iter().position(|&c| c == b'\n').map_or(self.0.len() - at, |n| n + 1);
            if at >= self.0.len() || is_head(&self.0[at..]) {
                break;
            }
        }
        let (answer, rest) = self.0.split_at(at);
        self.0 = rest;
        Some(answer)
    }
}

/// What a check does with tags: 1 looks them up in the lent bibliography, 2 has none lent, 3 does not look them up.
fn tags_of(case: &Case, tables: &BTreeMap<u8, Case>) -> &'static str {
    let lent = tables.get(&3).is_some_and(|table| table.flag == 3);
    match case.flag {
        NO_TAG_LOOKUP => "3",
        _ if lent => "1",
        _ => "2",
    }
}

/// What is counted together: entries from 10 on, as 10; lines from 10, from 100 and from 1000 on.
fn together(what: &str, value: u64) -> u64 {
    match (what, value) {
        ("entry" | "link", 10..) => 10,
        ("line" | "lines before", 1000..) => 1000,
        ("line" | "lines before", 100..) => 100,
        ("line" | "lines before", 10..) => 10,
        _ => value,
    }
}

/// Counts one answer; `tags` is told of a check.
fn count(tally: &mut Tally, case: &Case, tags: &str, answer: &[u8]) {
    let text = String::from_utf8_lossy(answer);
    let mut lines = text.lines();
    let head: Vec<&str> = lines.next().unwrap_or("").split('\t').collect();
    let op = head[0].chars().next().unwrap_or('?');
    let mut add = |what: &'static str, value: &str| {
        if let Ok(value) = value.parse::<u64>() {
            *tally.entry((op, what, together(what, value))).or_default() += 1;
        }
    };
    if head.len() < 2 {
        return add("bad case", "1");
    }
    add("answer", head[1]);
    if READING_OPS.contains(&(op as u8)) {
        add("reading", &case.reading.to_string());
    }
    // fields of the head line that are worth counting, by op and answer
    let fields: &[(&'static str, usize)] = match (op, head[1]) {
        ('L' | 'R' | 'K' | 'O', "0") => &[("value", 2)],
        ('N', "0") => &[("value", 2), ("entry", 3)],
        ('F', "0") => &[("modification", 2), ("usage", 3)],
        ('D', "0") => &[("month", 3), ("calendar", 5)],
        ('S' | 'Q', _) => &[("end", 3)],
        ('N' | 'C' | 'H', "4") => &[("table", 2)],
        _ => &[],
    };
    for &(what, at) in fields {
        add(what, head.get(at).unwrap_or(&""));
    }
    if matches!(op, 'U' | 'V') {
        add("mode", &case.flag.to_string());
    }
    if op == 'C' {
        add("tags", tags);
        if lines.clone().any(|line| line.starts_with("8\t")) {
            add("undefined tag", tags);
        }
    }
    let lined = matches!(op, 'E' | 'C');
    if lined && matches!(head[1], "0" | "7") {
        let before = case.payload.iter().take(case.a as usize).filter(|&&byte| byte == b'\n').count();
        add("lines before", &before.to_string());
    }
    let kinds = match op {
        'E' | 'S' => "event",
        'P' | 'Q' => "parenthetical",
        'C' => "diagnostic",
        _ => "record",
    };
    // the line of the record before
    let mut last = 0;
    for line in lines {
        let mut words = line.split('\t');
        let first = words.next().unwrap_or("");
        match first {
            "touched" => add("touched", "1"),
            "state" => {}
            // a link has no kind, and is counted by its entry, its last word
            _ if op == 'H' => add("link", words.last().unwrap_or("")),
            _ if lined => {
                add(kinds, first);
                let number = words.last().unwrap_or("");
                add("line", number);
                // a record that points back over lines is counted by its kind once more
                let this = number.parse().unwrap_or(0);
                if this < last {
                    add("back", first);
                }
                last = this;
            }
            _ => add(kinds, first),
        }
    }
}

impl Difference {
    /// The difference in words.
    pub fn told(&self, stream: &str) -> String {
        let c = &self.case;
        let mut text = format!("difference in {stream}, case {}\n", self.number);
        text += &format!(
            "  op {}, flag {}, byte 2 {}, a {}, b {}, c {}, room {}, n {}\n",
            c.op.escape_ascii(),
            c.flag,
            c.reading,
            c.a,
            c.b,
            c.c,
            c.room,
            c.payload.len()
        );
        let shown = &c.payload[..c.payload.len().min(512)];
        let cut = if shown.len() < c.payload.len() { " .." } else { "" };
        text += &format!("  payload {}{cut}\n", hex(shown));
        text += &format!("  in text {}{cut}\n", shown.escape_ascii());
        for (side, answer) in [("oracle", &self.left), ("other", &self.right)] {
            text += &format!("  {side}:\n{}", shown_answer(answer.as_deref()));
        }
        text
    }

    /// The tables and the case, as a run of their own.
    pub fn input(&self) -> Vec<u8> {
        let mut out = vec![];
        for case in self.tables.iter().chain([&self.case]) {
            case.write(&mut out).expect("a vector takes all");
        }
        out
    }
}

fn shown_answer(answer: Option<&[u8]>) -> String {
    let Some(answer) = answer else { return "    (no more answers)\n".to_string() };
    let text = String::from_utf8_lossy(answer);
    let lines: Vec<&str> = text.lines().collect();
    let mut out: String = lines.iter().take(20).map(|l| format!("    {l}\n")).collect();
    if lines.len() > 20 {
        out += &format!("    .. and {} more lines\n", lines.len() - 20);
    }
    out
}
