//! Where cases go: puts them in the reading, writes them, keeps track of the lent tables, and chooses rooms around what a
//! call needs.
use super::random::Rng;
use crate::cases::{Case, MOST_TEXT, MOST_WORDS, READING_OPS, STRICT};
use crate::lines::LINED_WIDTH;
use crate::ops;
use crate::readings::Reading;
use crate::tables::Tables;
use std::io::Write;

/// What a stream now and then has in header bytes that are not looked at: byte 2, where the op has no reading, and byte 3.
const UNREAD: [(u8, u8); 6] = [(1, 0), (2, 0), (255, 0), (0, 1), (1, 255), (255, 255)];
/// One case of so many has them.
const UNREAD_EVERY: usize = 16;

pub struct Sink<'a> {
    out: &'a mut dyn Write,
    tables: Tables,
    /// The reading of the whole stream.
    pub reading: Reading,
    /// How many cases were put; kept where bytes that are not looked at are filled now and then.
    number: Option<usize>,
    /// The stream's own numbers.
    pub rng: Rng,
}

impl<'a> Sink<'a> {
    pub fn new(name: &str, out: &'a mut dyn Write) -> Self {
        Self { out, tables: Tables::default(), reading: Reading::Rust, number: None, rng: Rng::new(name) }
    }

    /// For a stream: in either reading it makes the same cases, but for rooms that go by what a call needs.
    pub fn of_stream(name: &str, reading: Reading, out: &'a mut dyn Write) -> Self {
        Self { reading, number: Some(0), ..Self::new(name, out) }
    }

    /// The case as it is, in the stream's reading.
    pub fn put(&mut self, case: &Case) {
        if case.op == b'T' {
            self.tables.lend(case.flag, case.a, &case.payload);
        }
        let mut case = self.in_reading(case);
        self.fill_unread(&mut case);
        // A reader that has seen enough may close the pipe.
        if case.write(&mut self.out).is_err() {
            std::process::exit(0);
        }
    }

    /// The case in the stream's reading, if its op has one. Where that is the Rust's the case may say another.
    fn in_reading(&self, case: &Case) -> Case {
        let mut case = case.clone();
        if self.reading == Reading::Strict && READING_OPS.contains(&case.op) {
            case.reading = STRICT;
        }
        case
    }

    fn fill_unread(&mut self, case: &mut Case) {
        let Some(number) = &mut self.number else { return };
        *number += 1;
        if *number % UNREAD_EVERY == 0 {
            let (second, third) = UNREAD[*number / UNREAD_EVERY % UNREAD.len()];
            if !READING_OPS.contains(&case.op) {
                case.reading = second;
            }
            case.spare = third;
        }
    }

    /// The case with a room by chance: none, one short, exact, or a little more.
    pub fn put_roomed(&mut self, mut case: Case) {
        let exact = self.needed(&case);
        case.room = match self.rng.below(8) {
            0 => 0,
            1 => exact.saturating_sub(1),
            2 => exact / 2,
            3 => exact + 1,
            4 => exact + 9,
            _ => exact,
        };
        self.put(&case);
    }

    /// The case with each telling room: none, one short, exact, one more, large.
    pub fn put_every_room(&mut self, mut case: Case) {
        let exact = self.needed(&case);
        for room in [0, exact.saturating_sub(1), exact, exact + 1, 1024.max(exact)] {
            case.room = room;
            self.put(&case);
        }
    }

    /// Words or bytes that the call needs, by its own answer to room 0; 0 if it is refused.
    pub fn needed(&mut self, case: &Case) -> u32 {
        let mut out = vec![];
        let asked = Case { room: 0, ..self.in_reading(case) };
        if ops::answer(&asked, &mut self.tables, &mut out).is_none() {
            return 0;
        }
        let head = String::from_utf8(out).expect("answers are ASCII");
        let numbers: Vec<u32> =
            head.lines().next().unwrap_or("").split('\t').skip(1).filter_map(|f| f.parse().ok()).collect();
        let (width, most) = match case.op {
            b'P' => (7, MOST_WORDS),
            b'E' | b'C' => (LINED_WIDTH, MOST_WORDS),
            b'H' => (3, MOST_WORDS),
            _ => (1, MOST_TEXT),
        };
        match numbers[..] {
            [0 | 7, count, ..] => (count * width).min(most - 9),
            _ => 0,
        }
    }

    /// Lends table 1, 2 or 3 with these names, which are put in order first.
    pub fn lend<T: AsRef<[u8]> + Ord + Clone>(&mut self, number: u8, names: &[T]) {
        let mut sorted = names.to_vec();
        sorted.sort_by(|a, b| a.as_ref().cmp(b.as_ref()));
        sorted.dedup_by(|a, b| a.as_ref() == b.as_ref());
        let mut ends = vec![];
        let mut bytes = vec![];
        for name in &sorted {
            bytes.extend_from_slice(name.as_ref());
            ends.push(bytes.len() as u32);
        }
        self.put(&table(number, &ends, &bytes));
    }

    /// No bibliography from here on.
    pub fn lend_no_bibliography(&mut self) {
        self.put(&Case { op: b'T', ..Case::default() });
    }
}

/// Op T with these ends and bytes, well-formed or not.
pub fn table(number: u8, ends: &[u32], bytes: &[u8]) -> Case {
    let mut payload: Vec<u8> = ends.iter().flat_map(|e| e.to_le_bytes()).collect();
    payload.extend_from_slice(bytes);
    Case { op: b'T', flag: number, a: ends.len() as u32, payload, ..Case::default() }
}

/// A case over a span of a buffer.
pub fn span_case(op: u8, buf: &[u8], a: usize, b: usize) -> Case {
    Case { op, a: a as u32, b: b as u32, payload: buf.to_vec(), ..Case::default() }
}
