//! hold NAME CASES LEFT RIGHT TALLY FIRST: holds two runs' answers to the same cases against each other.
//! Reads the files CASES, LEFT (the oracle's answers) and RIGHT. Writes to TALLY how many answers were held, one line
//! `op TAB what TAB value TAB count` for each sort. At a difference prints it, writes the case with its tables to FIRST
//! and ends with status 1. Refuses (status 2) other words and files that cannot be read or written.
use std::fs;

fn main() {
    let words: Vec<String> = std::env::args().skip(1).collect();
    let [name, cases, left, right, tally, first] = &words[..] else { refuse("hold NAME CASES LEFT RIGHT TALLY FIRST") };
    let read = |path: &String| fs::read(path).unwrap_or_else(|e| refuse(&format!("{path}: {e}")));
    let write =
        |path: &String, bytes: &[u8]| fs::write(path, bytes).unwrap_or_else(|e| refuse(&format!("{path}: {e}")));
    let (counted, difference) = oracle::held::hold(&read(cases), &read(left), &read(right));
    let lines: String = counted.iter().map(|((op, what, value), n)| format!("{op}\t{what}\t{value}\t{n}\n")).collect();
    write(tally, lines.as_bytes());
    if let Some(difference) = difference {
        print!("{}", difference.told(name));
        write(first, &difference.input());
        std::process::exit(1);
    }
}

fn refuse(why: &str) -> ! {
    eprintln!("hold: {why}");
    std::process::exit(2)
}
