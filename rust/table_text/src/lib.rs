//! The readable text form of a table, and the bytes it stands for.
//!
//! `docs/TABLE-TEXT.md` describes the text form; document 01, "The table",
//! describes the bytes. The text can also say damaged tables: nothing here
//! tries whether a table is good, that is the table reader's work.

#![forbid(unsafe_code)]

pub mod corpus;
mod decode;
mod encode;
mod kind;
mod line;
mod parse;
mod places;
pub mod schedule;
mod source;

use std::fmt;

pub use decode::{decode, DecodeError};
pub use encode::Encoded;
pub use kind::{kind, Kind};
pub use line::statement;
pub use places::{edge_start, location_start, update_start};

/// A fault in a source text, with the number of its line, counted from 1.
#[derive(Debug, Clone, PartialEq, Eq)]
pub struct SourceError {
    pub line: usize,
    pub message: String,
}

impl fmt::Display for SourceError {
    fn fmt(&self, out: &mut fmt::Formatter<'_>) -> fmt::Result {
        write!(out, "line {}: {}", self.line, self.message)
    }
}

impl std::error::Error for SourceError {}

/// The bytes that a source text stands for.
pub fn encode(text: &str) -> Result<Vec<u8>, SourceError> {
    Ok(encode_with_lines(text)?.bytes)
}

/// The same, with the line that each byte comes from.
pub fn encode_with_lines(text: &str) -> Result<Encoded, SourceError> {
    encode::encode_table(&parse::parse_table(text)?)
}

/// The bytes that a source file stands for, which must be UTF-8.
pub fn encode_file(file: &[u8]) -> Result<Vec<u8>, SourceError> {
    encode(text_of(file)?)
}

/// The text in the bytes of a source file.
pub fn text_of(file: &[u8]) -> Result<&str, SourceError> {
    std::str::from_utf8(file).map_err(|error| {
        let read = &file[..error.valid_up_to()];
        SourceError {
            line: 1 + read.iter().filter(|byte| **byte == b'\n').count(),
            message: "a byte that is not UTF-8 text".to_string(),
        }
    })
}
