//! The line of a record: the fifth word of an event's record and of a diagnostic's (request P6). It is ours: what is cut
//! out of the crate gives places alone.

/// Words of an event's record and of a diagnostic's.
pub const LINED_WIDTH: u32 = 5;

/// Such a record: four words, and the line.
pub type Lined = [u32; LINED_WIDTH as usize];

/// The places of a buffer's LF bytes, in order: gathered once, so that no record counts from the start.
pub struct Lines(Vec<u32>);

impl Lines {
    /// The whole buffer counts, whatever span of it is read.
    pub fn of(buf: &[u8]) -> Self {
        Self((0..).zip(buf).filter(|&(_, &byte)| byte == b'\n').map(|(at, _)| at).collect())
    }

    /// 1 plus the number of LF bytes before the place.
    fn line_of(&self, place: u32) -> u32 {
        1 + self.0.partition_point(|&lf| lf < place) as u32
    }

    /// The record with the line of its place, which is its second word, put behind it.
    pub fn record(&self, words: [u32; 4]) -> Lined {
        let [kind, place, third, fourth] = words;
        [kind, place, third, fourth, self.line_of(place)]
    }
}
