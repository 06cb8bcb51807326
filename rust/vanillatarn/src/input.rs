//! What is read from files, `-` for standard input: tables, or texts that stand for them,
//! programs, choices and other bytes; and files of another kind.

use crate::output::{Stop, REFUSED, WRONG};
use std::ffi::OsStr;
use std::fs::File;
use std::io::{self, Read};
use std::path::Path;
use table_text::{Encoded, Kind, SourceError};

/// The most bytes of a table, of a text, and of a program.
const TABLE: usize = 8192;
const TEXT: usize = 10_000_000;
const PROGRAM: usize = 65_535;

/// What was handed in: a table, or a text with the table that it stands for.
pub enum Input {
    Bytes(Vec<u8>),
    Text { text: String, encoded: Encoded },
}

impl Input {
    pub fn table(&self) -> &[u8] {
        match self {
            Input::Bytes(table) => table,
            Input::Text { encoded, .. } => &encoded.bytes,
        }
    }
}

/// Why there is no verdict on a file.
#[derive(Debug, PartialEq, Eq)]
pub struct Problem {
    pub words: String,
    pub status: u8,
    /// The line of a text that it is about.
    pub line: Option<usize>,
}

impl Problem {
    /// The same of a file.
    pub fn of(&self, file: &OsStr) -> Stop {
        Stop::of_file(file, self.status, &self.words)
    }
}

/// A problem that is the file's.
fn wrong(words: impl Into<String>) -> Problem {
    Problem {
        words: words.into(),
        status: WRONG,
        line: None,
    }
}

fn too_long(most: usize, what: &str) -> Problem {
    wrong(format!("longer than {most} bytes, the most that {what}"))
}

/// What a file holds as a table.
pub fn input_of(file: &OsStr) -> Result<Input, Problem> {
    let bytes = some(file, TEXT)?;
    let input = match table_text::kind(&bytes) {
        Kind::Text => encoded(&bytes)?,
        _ => Input::Bytes(bytes),
    };
    match input.table().len() {
        0..=TABLE => Ok(input),
        _ => Err(too_long(TABLE, "a table has")),
    }
}

/// The same for a command that ends where there is none.
pub fn table_of(file: &OsStr) -> Result<Input, Stop> {
    input_of(file).map_err(|problem| problem.of(file))
}

/// What a file holds as a program.
pub fn program_in(file: &OsStr) -> Result<Vec<u8>, Problem> {
    limited(file, PROGRAM, "a program can state")
}

/// The same for a command that ends where there is none.
#[cfg(feature = "library")]
pub fn program_of(file: &OsStr) -> Result<Vec<u8>, Stop> {
    program_in(file).map_err(|problem| problem.of(file))
}

/// The bytes of a text.
pub fn text_of(file: &OsStr) -> Result<Vec<u8>, Stop> {
    limited(file, TEXT, "a text has").map_err(|problem| problem.of(file))
}

/// Bytes of which there are some, and at most so many.
fn limited(file: &OsStr, most: usize, what: &str) -> Result<Vec<u8>, Problem> {
    some(file, most).and_then(|bytes| match bytes.len() > most {
        true => Err(too_long(most, what)),
        false => Ok(bytes),
    })
}

fn some(file: &OsStr, most: usize) -> Result<Vec<u8>, Problem> {
    match read(file, most as u64)? {
        bytes if bytes.is_empty() => Err(wrong("is empty")),
        bytes => Ok(bytes),
    }
}

/// A list of choices: bytes, or a text of them. No choice that can ever be allowed is a byte of a
/// text, so that a file of such bytes alone is one.
#[cfg(feature = "library")]
pub fn choices_of(file: &OsStr, most: u64) -> Result<Vec<u8>, Stop> {
    let list = read(file, most).and_then(|bytes| match is_text(&bytes) {
        true => choices_in(&String::from_utf8_lossy(&bytes)),
        false => Ok(bytes),
    });
    list.map_err(|problem| problem.of(file))
}

/// Whether bytes are a text whose first word can be a choice: another text is told to be one.
#[cfg(feature = "library")]
fn is_text(bytes: &[u8]) -> bool {
    let sign = |byte: &u8| matches!(byte, b' '..=b'~' | b'\n' | b'\r' | b'\t');
    if !bytes.iter().all(sign) {
        return false;
    }
    let text = String::from_utf8_lossy(bytes);
    let said = text.lines().filter_map(|line| line.split('#').next());
    let first = said.flat_map(str::split_whitespace).next();
    first.is_some_and(|word| word == "tick" || word.starts_with(|sign: char| sign.is_ascii_digit()))
}

/// The choices of a text: `tick`, or a number from 0 to 255, with blanks between them. What stands
/// behind `#` is a comment.
#[cfg(feature = "library")]
fn choices_in(text: &str) -> Result<Vec<u8>, Problem> {
    let mut choices = Vec::new();
    for (number, line) in text.lines().enumerate() {
        let said = line.split('#').next().unwrap_or_default();
        for word in said.split_whitespace() {
            let choice = match word {
                "tick" => Some(255),
                word => word.parse().ok(),
            };
            let line = number + 1;
            choices.push(choice.ok_or_else(|| Problem {
                words: format!("line {line}: '{word}' is no choice: tick, or 0 to 255"),
                status: REFUSED,
                line: Some(line),
            })?);
        }
    }
    Ok(choices)
}

/// The bytes of a file, one more than there may be at most, so that more are seen.
pub fn read(file: &OsStr, most: u64) -> Result<Vec<u8>, Problem> {
    let unreadable = |_| wrong("cannot be read");
    let taken = |source: &mut dyn Read| {
        let mut bytes = Vec::new();
        let read = source.take(most + 1).read_to_end(&mut bytes);
        read.map(|_| bytes).map_err(unreadable)
    };
    if file == "-" {
        return taken(&mut io::stdin().lock());
    }
    let path = Path::new(file);
    if !path.exists() {
        Err(wrong("no such file"))
    } else if path.is_dir() {
        Err(wrong("is a folder"))
    } else {
        taken(&mut File::open(path).map_err(unreadable)?)
    }
}

fn encoded(file: &[u8]) -> Result<Input, Problem> {
    if file.len() > TEXT {
        return Err(too_long(TEXT, "a text has"));
    }
    with_lines(file).map_err(|fault| Problem {
        words: fault.to_string(),
        status: REFUSED,
        line: Some(fault.line),
    })
}

fn with_lines(file: &[u8]) -> Result<Input, SourceError> {
    let text = table_text::text_of(file)?.to_string();
    let encoded = table_text::encode_with_lines(&text)?;
    Ok(Input::Text { text, encoded })
}

/// What bytes that are refused with this number are, if they are no table. It is asked after 1 to
/// 4 alone, and after 19, which hides a 4.
pub fn another_kind(table: &[u8], number: u8) -> Option<Problem> {
    match number {
        1..=4 | 19 => other_than(table, "table", &[Kind::Program, Kind::Part]),
        _ => None,
    }
}

/// What bytes are where something else is wanted, if they are one of these kinds.
pub fn other_than(bytes: &[u8], wanted: &str, kinds: &[Kind]) -> Option<Problem> {
    let kind = table_text::kind(bytes);
    let name = match kind {
        Kind::Part => "node's part",
        kind => kind.name(),
    };
    let other = kinds.contains(&kind);
    other.then(|| wrong(format!("this is a {name}, not a {wanted}")))
}
