//! oracle: reads cases from standard input (REPLAY.md), writes the answers of metamath-rs 0.3.9 to standard output.
//! What is no case ends the run with the line `bad case`.
use oracle::cases::{Case, Next};
use oracle::{ops, tables::Tables};
use std::io::{self, BufReader, Write};

fn main() -> io::Result<()> {
    if std::env::args().len() > 1 {
        eprintln!("oracle: takes no arguments; cases on standard input, answers on standard output (REPLAY.md)");
        std::process::exit(2);
    }
    let mut input = BufReader::with_capacity(1 << 16, io::stdin().lock());
    let mut output = io::stdout().lock();
    let mut tables = Tables::default();
    let mut case = Case::default();
    let mut out = Vec::new();
    loop {
        let good = match case.read(&mut input)? {
            Next::End => break,
            Next::Bad => None,
            Next::Case => ops::answer(&case, &mut tables, &mut out),
        };
        if good.is_none() {
            out.extend_from_slice(b"bad case\n");
            break;
        }
        if out.len() > 1 << 16 {
            output.write_all(&out)?;
            out.clear();
        }
    }
    output.write_all(&out)?;
    output.flush()
}
