//! Answer lines: decimal fields parted by tabs.
use crate::rooms::{Laid, Written};

/// Answers are gathered as text.
pub type Out = Vec<u8>;

/// A line of numbers behind a word.
pub fn line(out: &mut Out, word: &str, numbers: &[u32]) {
    out.extend_from_slice(word.as_bytes());
    for &n in numbers {
        out.push(b'\t');
        number(out, n);
    }
    out.push(b'\n');
}

/// One line for each record of `width` words.
pub fn records(out: &mut Out, words: &[u32], width: usize) {
    for record in words.chunks_exact(width) {
        for (i, &n) in record.iter().enumerate() {
            if i > 0 {
                out.push(b'\t');
            }
            number(out, n);
        }
        out.push(b'\n');
    }
}

/// The answer of a list call: head, records, and words that were touched.
pub fn list(out: &mut Out, op: &str, laid: &Laid) {
    line(out, op, &[laid.answer, laid.count as u32]);
    records(out, &laid.written, laid.width);
    touched(out, &laid.touched);
}

/// The answer of a text call. An empty text is written `-`.
pub fn text(out: &mut Out, op: &str, written: &Written) {
    if written.answer == 7 {
        line(out, op, &[7, written.needed as u32]);
    } else {
        out.extend_from_slice(format!("{op}\t0\t{}\t", written.needed).as_bytes());
        out.extend_from_slice(hex(&written.bytes).as_bytes());
        out.push(b'\n');
    }
    touched(out, &written.touched);
}

/// Lower-case hex, `-` if there is nothing.
pub fn hex(bytes: &[u8]) -> String {
    if bytes.is_empty() {
        return "-".to_string();
    }
    const DIGITS: &[u8; 16] = b"0123456789abcdef";
    bytes.iter().flat_map(|b| [DIGITS[(b >> 4) as usize] as char, DIGITS[(b & 15) as usize] as char]).collect()
}

fn touched(out: &mut Out, places: &[usize]) {
    for &at in places {
        line(out, "touched", &[at as u32]);
    }
}

fn number(out: &mut Out, n: u32) {
    out.extend_from_slice(n.to_string().as_bytes());
}
