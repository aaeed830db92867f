//! The crate's rule for a valid label.
include!(concat!(env!("OUT_DIR"), "/parser.rs"));
