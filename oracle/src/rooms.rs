//! Lent room: filled with a pattern before the call, and looked through afterwards.

/// The pattern of words: depends on the index and is never 0.
fn word_at(i: usize) -> u32 {
    (i as u32).wrapping_mul(0x9e37_79b1) | 1
}

/// The pattern of bytes: depends on the index and is never 0.
fn byte_at(i: usize) -> u8 {
    (i % 255) as u8 + 1
}

/// What a list writer leaves: the answer, the full count, the words of a record, the records written and the words
/// that it should have kept.
pub struct Laid {
    pub answer: u32,
    pub count: usize,
    pub width: usize,
    pub written: Vec<u32>,
    pub touched: Vec<usize>,
}

/// Lays records of `WIDTH` words into `room` words: the first that fit.
pub fn lay<const WIDTH: usize>(records: &[[u32; WIDTH]], room: u32) -> Laid {
    let mut words: Vec<u32> = (0..room as usize).map(word_at).collect();
    let fit = records.len().min(words.len() / WIDTH);
    for (i, record) in records[..fit].iter().enumerate() {
        words[i * WIDTH..(i + 1) * WIDTH].copy_from_slice(record);
    }
    let touched = (fit * WIDTH..words.len()).filter(|&i| words[i] != word_at(i)).collect();
    words.truncate(fit * WIDTH);
    let answer = if fit < records.len() { 7 } else { 0 };
    Laid { answer, count: records.len(), width: WIDTH, written: words, touched }
}

/// What a text writer leaves: the answer, the bytes needed, the bytes written and those that it should have kept.
pub struct Written {
    pub answer: u32,
    pub needed: usize,
    pub bytes: Vec<u8>,
    pub touched: Vec<usize>,
}

/// Writes the text into `room` bytes, whole or not at all.
pub fn write_text(text: &[u8], room: u32) -> Written {
    let mut bytes: Vec<u8> = (0..room as usize).map(byte_at).collect();
    let fits = text.len() <= bytes.len();
    let kept_from = if fits { text.len() } else { 0 };
    bytes[..kept_from].copy_from_slice(&text[..kept_from]);
    let touched = (kept_from..bytes.len()).filter(|&i| bytes[i] != byte_at(i)).collect();
    bytes.truncate(kept_from);
    Written { answer: if fits { 0 } else { 7 }, needed: text.len(), bytes, touched }
}
