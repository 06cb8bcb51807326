//! Which lines of a text a refusal with 4 to 9 is about.

use crate::input::Input;
use crate::shown::{name, shown};
use std::ffi::OsStr;
use table_text::{location_start, update_start, Encoded};

/// Where the check stopped.
#[derive(Debug, PartialEq, Eq)]
pub enum Stop {
    /// At a byte of the table.
    Byte(usize),
    /// Where bytes are missing: the first of them.
    Missing(usize),
    /// At the opening of a passage, with 9 at an update of an edge.
    Opening {
        component: u8,
        location: u8,
        update: Option<(u8, u8)>,
    },
}

/// A line of a text, and what it is.
#[derive(Debug, PartialEq, Eq)]
pub struct Line {
    what: &'static str,
    pub number: usize,
}

/// The lines in words: a line each.
pub fn line_words(file: &OsStr, input: &Input, stop: Option<&Stop>) -> Vec<u8> {
    let (Input::Text { text, encoded }, Some(stop)) = (input, stop) else {
        return Vec::new();
    };
    let mut words = String::new();
    for line in stop.lines(encoded) {
        let said = shown(table_text::statement(text, line.number).as_bytes());
        let (what, number, name) = (line.what, line.number, name(file));
        words += &format!("{what} line {number} of {name}: {said}\n");
    }
    words.into_bytes()
}

impl Stop {
    /// The lines of the text: of the number at fault or of the bytes that do
    /// not fit (of those that are missing the line before them); of the location
    /// entered, and of the update.
    pub fn lines(&self, encoded: &Encoded) -> Vec<Line> {
        let found = match *self {
            Stop::Byte(byte) => [line("This is", Some(byte), encoded), None],
            Stop::Missing(byte) => {
                let before = byte.checked_sub(1);
                [line("The bytes are missing behind", before, encoded), None]
            }
            Stop::Opening {
                component,
                location,
                update,
            } => {
                let entered = location_start(&encoded.bytes, component, location);
                let changed = update
                    .and_then(|(edge, index)| update_start(&encoded.bytes, component, edge, index));
                [
                    line("The location is", entered, encoded),
                    line("The update is", changed, encoded),
                ]
            }
        };
        found.into_iter().flatten().collect()
    }
}

/// The line of a byte.
fn line(what: &'static str, byte: Option<usize>, encoded: &Encoded) -> Option<Line> {
    let number = encoded.line_of(byte?)?;
    Some(Line { what, number })
}
