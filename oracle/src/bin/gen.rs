//! gen: writes cases (REPLAY.md), the same at every run.
//!   gen list OPS                            the streams whose every op is among OPS, in each of their readings; `mm` where one reads a database
//!   gen stream NAME [--long] [--mm FILE]    the cases of a stream, to standard output
//!   gen stored OPS                          the stored cases of these ops, to standard output
//!   gen bad OPS DIR                         bad inputs for these ops, each a file DIR/NAME.case
//! Refuses (status 2) other words, an unknown stream, a database that cannot be read, and a stream that needs one and has none.
use oracle::gen::{bad, database::Mm, find, sink::Sink, stored, streams_for, Plan};
use std::io::{self, BufWriter, Write};

fn main() -> io::Result<()> {
    let words: Vec<String> = std::env::args().skip(1).collect();
    let words: Vec<&str> = words.iter().map(String::as_str).collect();
    let mut out = BufWriter::with_capacity(1 << 16, io::stdout().lock());
    match words[..] {
        ["list", ops] => {
            for stream in streams_for(ops) {
                for &reading in stream.readings() {
                    writeln!(out, "{}{}", stream.name_in(reading), if stream.reads_mm { "\tmm" } else { "" })?;
                }
            }
        }
        ["stream", name, ref rest @ ..] => stream(name, rest, &mut out)?,
        ["stored", ops] => {
            let mut sink = Sink::new("stored", &mut out);
            ops.bytes().for_each(|op| stored::put(op, &mut sink));
            stored::put_end(&mut sink);
        }
        ["bad", ops, dir] => {
            std::fs::create_dir_all(dir)?;
            for input in bad::inputs().iter().filter(|i| i.ops.chars().all(|op| ops.contains(op))) {
                std::fs::write(format!("{dir}/{}.case", input.name), &input.input)?;
            }
        }
        _ => refuse("gen list OPS | stream NAME [--long] [--mm FILE] | stored OPS | bad OPS DIR"),
    }
    out.flush()
}

fn stream(name: &str, options: &[&str], out: &mut dyn Write) -> io::Result<()> {
    let mut long = false;
    let mut mm = None;
    let mut options = options.iter();
    while let Some(&option) = options.next() {
        match option {
            "--long" => long = true,
            "--mm" => mm = options.next().copied(),
            _ => refuse(&format!("{option}: not known")),
        }
    }
    let Some((stream, reading)) = find(name) else { refuse(&format!("{name}: no such stream")) };
    let mm = match mm {
        Some(path) if stream.reads_mm => match std::fs::read(path) {
            Ok(text) => Some(Mm::read(&text)),
            Err(e) => refuse(&format!("{path}: {e}")),
        },
        None if stream.reads_mm => refuse(&format!("{name} reads a database: --mm FILE")),
        _ => None,
    };
    stream.put(reading, &Plan { long, mm: mm.as_ref() }, out);
    Ok(())
}

fn refuse(why: &str) -> ! {
    eprintln!("gen: {why}");
    std::process::exit(2)
}
