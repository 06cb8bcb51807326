//! `vanillatarn list`: a program, a statement a line, as the proved words tell it.

use super::each::{each, Told};
use crate::input;
use crate::json::{line, string};
use crate::options::{Form, Question};
use crate::output::Ended;
use crate::words;
use std::ffi::OsStr;
use table_text::Kind;

pub fn answer(asked: &Question) -> Ended {
    each(asked, &asked.files, input::program_in, |file, program| {
        let listing = words::listing(program)?;
        let damaged = String::from_utf8_lossy(&listing).lines().any(tells_damage);
        let kinds = [Kind::Table, Kind::Text, Kind::Part];
        if let Some(problem) = input::other_than(program, "program", &kinds) {
            if damaged {
                return Ok(Told::Fault(problem));
            }
        }
        let text = match asked.form() {
            Form::Words => listing,
            Form::Json => object_of(file, &listing, damaged),
        };
        Ok(match damaged {
            true => Told::Flawed(text, "the program is damaged"),
            false => Told::Answer(text, 0),
        })
    })
}

/// The object of a program: its lines, and whether it is damaged.
fn object_of(file: &OsStr, listing: &[u8], damaged: bool) -> Vec<u8> {
    let listing = String::from_utf8_lossy(listing);
    let lines: Vec<String> = listing.lines().map(string).collect();
    line(&[
        ("file", string(&file.to_string_lossy())),
        ("lines", format!("[{}]", lines.join(","))),
        ("damaged", damaged.to_string()),
    ])
}

/// Whether a line says that something is missing or out of place.
fn tells_damage(line: &str) -> bool {
    let beginnings = [
        "the header lies outside",
        "the length is not that",
        "  the starts of its blocks",
        "      the rest of the block",
        "      no statement:",
        "  bytes behind the last",
    ];
    let node = line
        .strip_prefix("node ")
        .and_then(|rest| rest.split_once(": "));
    let part = node.is_some_and(|(_, rest)| rest.starts_with("its part lies"));
    part || beginnings.iter().any(|words| line.starts_with(words)) || is_no_statement(line)
}

/// `PLACE BYTES no statement`.
fn is_no_statement(line: &str) -> bool {
    let words: Vec<&str> = line.split_whitespace().collect();
    matches!(words.as_slice(), [place, bytes, "no", "statement"]
        if place.bytes().all(|byte| byte.is_ascii_digit()) && bytes.len() == 8)
}

#[cfg(test)]
mod tests {
    use super::tells_damage;

    #[test]
    fn lines_that_tell_damage() {
        for line in [
            "the header lies outside the bytes",
            "node 3: its part lies outside the bytes, or has fewer than 6",
            "      no statement: the block ends where it starts, or before",
            "    12 13000000 no statement",
        ] {
            assert!(tells_damage(line), "{line}");
        }
        for line in [
            "version 1, length 246, nodes 2, horizon 20",
            "node 0: length 94, locations 2, edges 2, initial location 0",
            "  location 0, from statement 0",
            "     0 0a000000 trial",
        ] {
            assert!(!tells_damage(line), "{line}");
        }
    }
}
