//! Source lines: depth, words, and the numbers and names in them.

use crate::source::Said;
use crate::SourceError;
use std::mem::size_of;

/// One line that says something: neither blank nor a comment alone.
#[derive(Debug)]
pub struct Line<'a> {
    pub number: usize,
    /// 0 for the table, 1 inside a component, 2 inside an edge.
    pub depth: usize,
    pub words: Vec<&'a str>,
}

/// The lines of a text that say something, in order.
pub fn split_lines(text: &str) -> Result<Vec<Line<'_>>, SourceError> {
    let mut lines = Vec::new();
    for (index, whole) in text.lines().enumerate() {
        let said = without_comment(whole);
        if !said.trim_start().is_empty() {
            lines.push(read_line(index + 1, said)?);
        }
    }
    Ok(lines)
}

fn without_comment(whole: &str) -> &str {
    whole.split('#').next().unwrap_or("").trim_end()
}

/// What the line of a text with this number says: its words, without what
/// stands before them and without its comment.
pub fn statement(text: &str, number: usize) -> String {
    let whole = text.lines().nth(number.wrapping_sub(1)).unwrap_or("");
    let words: Vec<&str> = without_comment(whole).split_whitespace().collect();
    words.join(" ")
}

fn read_line(number: usize, said: &str) -> Result<Line<'_>, SourceError> {
    let error = |message: &str| SourceError {
        line: number,
        message: message.to_string(),
    };
    if said.contains('\t') {
        return Err(error("a tab; use spaces, two for each step inwards"));
    }
    let depth = match said.len() - said.trim_start_matches(' ').len() {
        0 => 0,
        2 => 1,
        4 => 2,
        _ => {
            return Err(error(
                "indent by 0, 2 (inside a component) or 4 spaces (inside an edge)",
            ))
        }
    };
    Ok(Line {
        number,
        depth,
        words: said.split_whitespace().collect(),
    })
}

impl Line<'_> {
    /// What this line says, with its number.
    pub fn said<T>(&self, what: T) -> Said<T> {
        Said {
            line: self.number,
            what,
        }
    }

    pub fn error(&self, message: impl Into<String>) -> SourceError {
        SourceError {
            line: self.number,
            message: message.into(),
        }
    }

    /// A decimal number that fits the field of type `T`.
    pub fn number<T: TryFrom<i64>>(&self, word: &str) -> Result<T, SourceError> {
        let value = decimal(word).ok_or_else(|| self.error(format!("'{word}' is no number")))?;
        T::try_from(value).map_err(|_| {
            let signed = T::try_from(-1).is_ok();
            self.error(format!("{word} does not fit {}", field_name::<T>(signed)))
        })
    }

    /// The number in a name such as `x0` or `v3`.
    pub fn named(&self, letter: char, word: &str) -> Result<u8, SourceError> {
        match word.strip_prefix(letter) {
            Some(digits) => self.number(digits),
            None => Err(self.error(format!("'{word}' should be {letter} and a number"))),
        }
    }

    /// Fills a number that a block may state once.
    pub fn set<T: TryFrom<i64>>(
        &self,
        slot: &mut Option<Said<T>>,
        word: &str,
    ) -> Result<(), SourceError> {
        if slot.is_some() {
            return Err(self.error("this number is stated a second time"));
        }
        *slot = Some(self.said(self.number(word)?));
        Ok(())
    }

    /// The bytes of `bytes 00 ff` or `bytes 00 ff times 20`.
    pub fn raw_bytes(&self) -> Result<Vec<u8>, SourceError> {
        let listed = &self.words[1..];
        match listed {
            [bytes @ .., "times", count] if !bytes.is_empty() => {
                let count: u16 = self.number(count)?;
                Ok(self.hex_bytes(bytes)?.repeat(usize::from(count)))
            }
            [] => Err(self.error("no bytes; write: bytes 00 ff, or: bytes 00 times 20")),
            bytes => self.hex_bytes(bytes),
        }
    }

    fn hex_bytes(&self, words: &[&str]) -> Result<Vec<u8>, SourceError> {
        words.iter().map(|word| self.hex_byte(word)).collect()
    }

    fn hex_byte(&self, word: &str) -> Result<u8, SourceError> {
        let two_digits = word.len() == 2 && word.bytes().all(|b| b.is_ascii_hexdigit());
        let value = u8::from_str_radix(word, 16).ok().filter(|_| two_digits);
        value.ok_or_else(|| self.error(format!("'{word}' is no byte of two hexadecimal digits")))
    }
}

/// Digits with at most a minus sign before them.
fn decimal(word: &str) -> Option<i64> {
    let digits = word.strip_prefix('-').unwrap_or(word);
    let plain = !digits.is_empty() && digits.bytes().all(|b| b.is_ascii_digit());
    plain.then(|| word.parse().unwrap_or(i64::MAX))
}

fn field_name<T>(signed: bool) -> &'static str {
    match (size_of::<T>(), signed) {
        (1, _) => "a field of 1 byte (0 to 255)",
        (_, false) => "a field of 2 bytes (0 to 65535)",
        (_, true) => "a signed field of 2 bytes (-32768 to 32767)",
    }
}
