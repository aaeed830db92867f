//! A case: its header and payload, how it is read and written, and what makes it none (REPLAY.md).
use crate::readings::Reading;
use crate::states::STATE_BYTES;
use std::io::{self, ErrorKind, Read, Write};

/// Most bytes of a payload, but for tables.
pub const MOST_BYTES: u32 = 65_536;
/// Most words lent for records.
pub const MOST_WORDS: u32 = 655_360;
/// Most bytes lent for text.
pub const MOST_TEXT: u32 = 65_536;
/// Op C's flag of the named choice: tags are not looked up, and table 3 is not looked at.
pub const NO_TAG_LOOKUP: u8 = 1;
/// Op C's flags: the check with the lent bibliography or without one, and the named choice.
pub const CHECK_FLAGS: [u8; 2] = [0, NO_TAG_LOOKUP];
/// The ops whose byte 2 is the reading.
pub const READING_OPS: &[u8] = b"ESVPQCH";
/// Byte 2 of the strict reading. The Rust's is 0.
pub const STRICT: u8 = 1;

const HEADER_BYTES: usize = 24;

#[derive(Debug, Clone, Default, PartialEq, Eq)]
pub struct Case {
    pub op: u8,
    pub flag: u8,
    /// Byte 2: the reading, where the op has one.
    pub reading: u8,
    /// Byte 3: nowhere looked at.
    pub spare: u8,
    pub a: u32,
    pub b: u32,
    pub c: u32,
    pub room: u32,
    pub payload: Vec<u8>,
}

/// What the input holds next.
#[derive(Debug, PartialEq, Eq)]
pub enum Next {
    Case,
    End,
    Bad,
}

impl Case {
    /// Reads the next case into `self`. A case that the table of ops calls none, or that the input cuts short, is bad.
    pub fn read(&mut self, input: &mut impl Read) -> io::Result<Next> {
        let mut head = [0; HEADER_BYTES];
        match read_up_to(input, &mut head)? {
            0 => return Ok(Next::End),
            HEADER_BYTES => {}
            _ => return Ok(Next::Bad),
        }
        let word = |at: usize| u32::from_le_bytes([head[at], head[at + 1], head[at + 2], head[at + 3]]);
        self.op = head[0];
        self.flag = head[1];
        (self.reading, self.spare) = (head[2], head[3]);
        (self.a, self.b, self.c, self.room) = (word(4), word(8), word(12), word(16));
        let length = word(20);
        if length > self.most_bytes() || !self.header_fits(length) {
            return Ok(Next::Bad);
        }
        self.payload.resize(length as usize, 0);
        if read_up_to(input, &mut self.payload)? < length as usize {
            return Ok(Next::Bad);
        }
        Ok(Next::Case)
    }

    pub fn write(&self, out: &mut impl Write) -> io::Result<()> {
        let mut head = [0; HEADER_BYTES];
        head[0] = self.op;
        head[1] = self.flag;
        (head[2], head[3]) = (self.reading, self.spare);
        let words = [self.a, self.b, self.c, self.room, self.payload.len() as u32];
        for (i, word) in words.iter().enumerate() {
            head[4 + 4 * i..8 + 4 * i].copy_from_slice(&word.to_le_bytes());
        }
        out.write_all(&head)?;
        out.write_all(&self.payload)
    }

    /// The reading of a case of the ops that have one.
    pub fn reading(&self) -> Reading {
        if self.reading == STRICT {
            Reading::Strict
        } else {
            Reading::Rust
        }
    }

    fn most_bytes(&self) -> u32 {
        match (self.op, self.flag) {
            (b'T', 2) => 2_097_152,
            (b'T', _) => 262_144,
            _ => MOST_BYTES,
        }
    }

    /// Is the header one of a case? `length` is the payload's.
    fn header_fits(&self, length: u32) -> bool {
        if READING_OPS.contains(&self.op) && self.reading > STRICT {
            return false;
        }
        match self.op {
            b'T' => self.flag == 0 || self.flag <= 3 && self.a <= self.most_ends() && self.a * 4 <= length,
            b'E' | b'P' | b'H' => self.room <= MOST_WORDS,
            b'C' => CHECK_FLAGS.contains(&self.flag) && self.room <= MOST_WORDS,
            b'S' => length >= STATE_BYTES,
            b'K' => self.is_date_triple(),
            b'W' => self.is_date_triple() && self.room <= MOST_TEXT,
            b'U' => self.flag <= 3 && self.room <= MOST_TEXT,
            b'V' => matches!(self.flag, 0 | 2 | 3) && self.room <= MOST_TEXT && length >= STATE_BYTES,
            b'N' => matches!(self.flag, 1..=3),
            b'Q' | b'F' | b'D' | b'O' | b'L' | b'R' => true,
            _ => false,
        }
    }

    fn most_ends(&self) -> u32 {
        if self.flag == 2 {
            131_072
        } else {
            65_536
        }
    }

    /// Year `a`, month `b` and day `c` fit the fields of a date.
    fn is_date_triple(&self) -> bool {
        self.a <= 65_535 && self.b <= 255 && self.c <= 255
    }
}

/// Fills the bytes as far as the input goes, and says how far.
fn read_up_to(input: &mut impl Read, bytes: &mut [u8]) -> io::Result<usize> {
    let mut have = 0;
    while have < bytes.len() {
        match input.read(&mut bytes[have..]) {
            Ok(0) => break,
            Ok(n) => have += n,
            Err(e) if e.kind() == ErrorKind::Interrupted => {}
            Err(e) => return Err(e),
        }
    }
    Ok(have)
}
