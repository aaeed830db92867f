//! Cuts the Rust that the oracle runs out of the source files of metamath-rs 0.3.9 and writes it to OUT_DIR, where the
//! modules of src/ include it. None of that text stands in this repository: only the line starts to cut by, and the
//! few words that the strict reading changes.
//!
//! Reads   ORACLE_SRC    folder of the source files, seen from this folder (default: ../../shared/docs/src)
//!         ORACLE_BREAK  for compare's self-test: `file TAB anchor TAB old TAB new`, one change to a cut file
//! Refuses a source file that is missing or is not the one known here, and a cut or a change that does not fit.
use std::path::{Path, PathBuf};
use std::{env, fs, process};

/// The files cut from: name, length and FNV-1a hash over 64 bits.
const FILES: [(&str, usize, u64); 5] = [
    ("src--src--comment_parser.rs.txt", 24_066, 0x3a26_d7cb_89b6_1da8),
    ("src--src--verify_markup.rs.txt", 26_191, 0xffa0_a0a0_4065_a82a),
    ("src--src--parser.rs.txt", 43_432, 0x40b0_2992_d2f5_d769),
    ("src--src--statement.rs.txt", 28_231, 0x16c9_83b4_d9d1_3822),
    ("src--src--diag.rs.txt", 51_132, 0xa958_2c48_1ea5_ae5e),
];

/// The diagnostics that the comment check gives, in document 01's order.
const DIAGNOSTICS: [&str; 10] = [
    "MarkupNeedsWhitespace",
    "UninterpretedEscape",
    "UninterpretedHtml",
    "UndefinedToken",
    "EmptyLabel",
    "UnknownLabel",
    "BibEscape",
    "UndefinedBibTag",
    "UnclosedMathMarkup",
    "UnclosedHtml",
];

/// What of the comment parser looks at the reading, by its blocks' first lines.
const PARSER_AND_SEARCH: [&str; 6] = [
    "pub struct CommentParser<'a> {",
    "impl<'a> CommentParser<'a> {",
    "impl<'a> Iterator for CommentParser<'a> {",
    "pub struct ParentheticalIter<'a> {",
    "impl<'a> ParentheticalIter<'a> {",
    "impl<'a> Iterator for ParentheticalIter<'a> {",
];

/// The strict reading's changes, and no other: what stands there once, and what takes its place.
const STRICT: [(&str, &str); 4] = [
    // a subscript can't begin with one of the four bytes, and ends at one
    ("contains(c) {\n            return", "contains(c) || BARRED.contains(c) {\n            return"),
    ("contains(c) {\n                break", "contains(c) || BARRED.contains(c) {\n                break"),
    // an italic whose end is looked for past one of them does not open
    ("get(end)?", "get(end).filter(|c| !BARRED.contains(c))?"),
    // an opening parenthesis bars the author
    ("[^,)]", "[^,()]"),
];

fn main() {
    println!("cargo:rerun-if-env-changed=ORACLE_SRC");
    println!("cargo:rerun-if-env-changed=ORACLE_BREAK");
    println!("cargo:rerun-if-changed=build.rs");
    let folder = source_folder();
    let text = |name: &str| known_text(&folder, name);

    let parser = text("src--src--comment_parser.rs.txt");
    put("comment_parser.rs", without_inner_docs(&parser));
    put("strict_parser.rs", made_strict(PARSER_AND_SEARCH.map(|begins| block(&parser, begins)).concat()));

    let statement = text("src--src--statement.rs.txt");
    let span = [
        line(&statement, "pub type FilePos"),
        line(&statement, "pub type Token "),
        block(&statement, "/// Semantic type for file-position ranges"),
        block(&statement, "impl Span {"),
        block(&statement, "pub(crate) fn unescape("),
    ];
    put("statement.rs", span.concat());

    let labels = text("src--src--parser.rs.txt");
    put("parser.rs", block(&labels, "pub fn is_valid_label("));

    let markup = text("src--src--verify_markup.rs.txt");
    let check = [block(&markup, "fn windows_reserved_names("), block(&markup, "fn verify_markup_comment(")];
    put("verify_markup.rs", check.concat());

    let diag = text("src--src--diag.rs.txt");
    let cases = block(&diag, "pub enum Diagnostic {");
    let mut kept = String::from("pub enum Diagnostic {\n");
    for name in DIAGNOSTICS {
        kept += &line(&cases, &format!("    {name}("));
    }
    put("diag.rs", kept + "}\n");
}

/// The folder to cut from; it is looked at again when a file in it changes.
fn source_folder() -> PathBuf {
    let folder = match env::var_os("ORACLE_SRC") {
        Some(given) => PathBuf::from(given),
        None => Path::new(&env::var("CARGO_MANIFEST_DIR").unwrap()).join("../../shared/docs/src"),
    };
    println!("cargo:rerun-if-changed={}", folder.display());
    folder
}

/// The text of a source file, if it is the one known here.
fn known_text(folder: &Path, name: &str) -> String {
    let path = folder.join(name);
    println!("cargo:rerun-if-changed={}", path.display());
    let bytes = fs::read(&path)
        .unwrap_or_else(|e| refuse(&format!("cannot read {}: {e} (ORACLE_SRC names the folder)", path.display())));
    let (_, length, hash) = FILES.iter().find(|f| f.0 == name).unwrap();
    if bytes.len() != *length || fnv(&bytes) != *hash {
        refuse(&format!(
            "{} is not the file of metamath-rs 0.3.9 that this oracle knows: {} bytes, hash {:#018x}, \
             expected {length} bytes, hash {hash:#018x}",
            path.display(),
            bytes.len(),
            fnv(&bytes)
        ));
    }
    String::from_utf8(bytes).unwrap_or_else(|_| refuse(&format!("{name} is not UTF-8")))
}

/// FNV-1a over 64 bits.
fn fnv(bytes: &[u8]) -> u64 {
    bytes.iter().fold(0xcbf2_9ce4_8422_2325, |h, &b| (h ^ u64::from(b)).wrapping_mul(0x0100_0000_01b3))
}

/// The one line that begins so.
fn line(text: &str, begins: &str) -> String {
    let mut found = text.lines().filter(|l| l.starts_with(begins));
    match (found.next(), found.next()) {
        (Some(one), None) => format!("{one}\n"),
        _ => refuse(&format!("not exactly one line begins '{begins}'")),
    }
}

/// From the one line that begins so to the next closing brace at a line's start.
fn block(text: &str, begins: &str) -> String {
    let first = line(text, begins);
    let from = text.find(&format!("\n{first}")).map_or(0, |at| at + 1);
    match text[from..].find("\n}\n") {
        Some(length) => text[from..from + length + 3].to_string(),
        None => refuse(&format!("no end of the block that begins '{begins}'")),
    }
}

/// Included text may not hold the comments of its own file's head.
fn without_inner_docs(text: &str) -> String {
    text.lines().filter(|l| !l.starts_with("//!")).map(|l| format!("{l}\n")).collect()
}

/// The text with the strict reading's changes made.
fn made_strict(mut text: String) -> String {
    for (old, new) in STRICT {
        if text.matches(old).count() != 1 {
            refuse(&format!("strict reading: not exactly one {old:?} to change"));
        }
        text = text.replace(old, new);
    }
    text
}

/// Writes a cut file, broken first if ORACLE_BREAK says so.
fn put(name: &str, text: String) {
    let text = match env::var("ORACLE_BREAK") {
        Ok(change) if !change.is_empty() => broken(name, text, &change),
        _ => text,
    };
    let path = Path::new(&env::var("OUT_DIR").unwrap()).join(name);
    fs::write(&path, text).unwrap_or_else(|e| refuse(&format!("cannot write {}: {e}", path.display())));
}

/// The text with the first `old` after the anchor replaced by `new`, if the change is for this file.
fn broken(name: &str, text: String, change: &str) -> String {
    let parts: Vec<&str> = change.split('\t').collect();
    let [file, anchor, old, new] = parts[..] else { refuse("ORACLE_BREAK: file, anchor, old, new, parted by tabs") };
    if file != name {
        return text;
    }
    let after = text.find(anchor).unwrap_or_else(|| refuse(&format!("ORACLE_BREAK: no '{anchor}' in {name}")));
    match text[after..].find(old) {
        Some(at) => format!("{}{new}{}", &text[..after + at], &text[after + at + old.len()..]),
        None => refuse(&format!("ORACLE_BREAK: no '{old}' behind '{anchor}' in {name}")),
    }
}

fn refuse(why: &str) -> ! {
    eprintln!("oracle/build.rs: {why}");
    process::exit(1)
}
