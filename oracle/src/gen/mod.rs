//! The case generator: named streams, each for one op (and T, where the op needs tables), the same at every run.
//! A stream of an op that has a reading runs in both: in the strict one under its name with `-strict` behind.
//! A new op gets a file here, its streams in `STREAMS`, its lines in promises.txt and its cases in stored.rs.
pub mod bad;
pub mod checking;
pub mod comments;
pub mod credits;
pub mod database;
pub mod dates;
pub mod limits;
pub mod lines;
pub mod links;
pub mod names;
pub mod parsing;
pub mod random;
pub mod sink;
pub mod stepping;
pub mod stored;
pub mod stored_comments;
pub mod stored_lines;
pub mod stored_links;
pub mod stored_strict;
pub mod stored_sweeps;
pub mod stored_tables;
pub mod strict;
pub mod strict_credits;
pub mod texts;
pub mod unescaping;

use crate::cases::READING_OPS;
use crate::readings::Reading;
use database::Mm;
use sink::Sink;
use std::io::Write;

/// What a run of the generator is given.
pub struct Plan<'a> {
    /// The long run: deeper and more.
    pub long: bool,
    /// A Metamath database, for the streams that read one.
    pub mm: Option<&'a Mm>,
}

impl Plan<'_> {
    /// One number for the short run, another for the long one.
    pub fn either<T>(&self, short: T, long: T) -> T {
        if self.long {
            long
        } else {
            short
        }
    }
}

/// A named stream: the ops that its cases have, whether it reads a database, and its maker.
pub struct Stream {
    pub name: &'static str,
    pub ops: &'static str,
    pub reads_mm: bool,
    pub make: fn(&Plan, &mut Sink),
}

/// What a stream's name ends with in the strict reading.
const STRICT_NAME: &str = "-strict";

impl Stream {
    /// The readings that it runs in.
    pub fn readings(&self) -> &'static [Reading] {
        if self.ops.bytes().any(|op| READING_OPS.contains(&op)) {
            &[Reading::Rust, Reading::Strict]
        } else {
            &[Reading::Rust]
        }
    }

    /// Its name in a reading.
    pub fn name_in(&self, reading: Reading) -> String {
        match reading {
            Reading::Rust => self.name.to_string(),
            Reading::Strict => format!("{}{STRICT_NAME}", self.name),
        }
    }

    /// Makes its cases. The numbers by chance are those of its own name, so they are the same in both readings.
    pub fn put(&self, reading: Reading, plan: &Plan, out: &mut dyn Write) {
        (self.make)(plan, &mut Sink::of_stream(self.name, reading, out));
    }
}

const fn plain(name: &'static str, ops: &'static str, make: fn(&Plan, &mut Sink)) -> Stream {
    Stream { name, ops, reads_mm: false, make }
}

const fn of_mm(name: &'static str, ops: &'static str, make: fn(&Plan, &mut Sink)) -> Stream {
    Stream { name, ops, reads_mm: true, make }
}

pub const STREAMS: &[Stream] = &[
    plain("L-strings", "L", names::label_strings),
    of_mm("L-database", "L", database::labels),
    plain("L-limits", "L", limits::labels),
    plain("R-strings", "R", names::reserved_strings),
    plain("R-limits", "R", limits::reserved),
    plain("U-exhaustive", "U", unescaping::exhaustive),
    plain("U-random", "U", unescaping::random),
    plain("U-limits", "U", limits::unescaping),
    of_mm("U-database", "U", database::unescaping),
    plain("D-dates", "D", dates::read),
    plain("D-mutated", "D", dates::read_mutated),
    plain("D-limits", "D", limits::dates),
    plain("K-dates", "K", dates::calendar),
    plain("O-dates", "O", dates::order),
    plain("W-dates", "W", dates::written),
    plain("V-forged", "V", unescaping::forged),
    plain("V-limits", "V", limits::parser_unescaping),
    plain("E-exhaustive", "E", parsing::exhaustive),
    plain("E-bytes", "E", parsing::bytes),
    plain("E-random", "E", parsing::random),
    plain("E-rooms", "E", parsing::rooms),
    plain("E-lines", "E", lines::events),
    plain("E-readings", "E", strict::events),
    plain("E-limits", "E", limits::events),
    of_mm("E-database", "E", database::events),
    of_mm("E-mutated", "E", database::events_mutated),
    of_mm("E-database-lines", "E", database::events_behind),
    plain("S-exhaustive", "S", stepping::exhaustive),
    plain("S-starts", "S", stepping::starts),
    plain("S-random", "S", stepping::random),
    plain("S-walks", "S", stepping::walks),
    plain("S-readings", "S", strict::stepped),
    plain("S-limits", "S", limits::steps),
    plain("P-words", "P", credits::words_listed),
    plain("P-mutated", "P", credits::mutated_listed),
    plain("P-random", "P", credits::random_listed),
    plain("P-readings", "P", strict_credits::credits_listed),
    plain("P-limits", "P", limits::parentheticals),
    of_mm("P-database", "P", database::parentheticals),
    of_mm("P-database-mutated", "P", database::parentheticals_mutated),
    plain("Q-words", "Q", credits::words_stepped),
    plain("Q-mutated", "Q", credits::mutated_stepped),
    plain("Q-readings", "Q", strict_credits::credits_stepped),
    plain("Q-limits", "Q", limits::credit_steps),
    of_mm("Q-database", "Q", database::parentheticals_stepped),
    plain("F-words", "F", credits::words_flagged),
    plain("F-mutated", "F", credits::mutated_flagged),
    plain("F-limits", "F", limits::flags),
    of_mm("F-database", "F", database::flags),
    plain("N-tables", "TN", names::lookups),
    plain("N-malformed", "TN", names::malformed_lookups),
    plain("N-limits", "TN", limits::lookups),
    of_mm("N-database", "TN", database::lookups),
    plain("C-exhaustive", "TC", checking::exhaustive),
    plain("C-random", "TC", checking::random),
    plain("C-tables", "TC", checking::tables),
    plain("C-malformed", "TC", checking::malformed),
    plain("C-lines", "TC", lines::checks),
    plain("C-readings", "TC", strict::checks),
    plain("C-limits", "TC", limits::checks),
    of_mm("C-database", "TC", database::checks),
    of_mm("C-mutated", "TC", database::checks_mutated),
    of_mm("C-database-lines", "TC", database::checks_behind),
    plain("H-exhaustive", "TH", links::exhaustive),
    plain("H-random", "TH", links::random),
    plain("H-tables", "TH", links::tables),
    plain("H-malformed", "TH", links::malformed),
    plain("H-readings", "TH", strict::links),
    plain("H-limits", "TH", limits::links),
    of_mm("H-database", "TH", database::links),
    of_mm("H-mutated", "TH", database::links_mutated),
];

/// The streams whose every op is among these.
pub fn streams_for(ops: &str) -> impl Iterator<Item = &'static Stream> + '_ {
    STREAMS.iter().filter(move |s| s.ops.chars().all(|op| ops.contains(op)))
}

/// The stream of this name, and the reading that the name says.
pub fn find(name: &str) -> Option<(&'static Stream, Reading)> {
    let mut in_each = STREAMS.iter().flat_map(|stream| stream.readings().iter().map(move |&reading| (stream, reading)));
    in_each.find(|(stream, reading)| stream.name_in(*reading) == name)
}
