//! `vanillatarn part`: the part of a program that belongs to one node, from the library.

mod c_array;

use crate::input;
use crate::options::Question;
use crate::output::{deliver, Ended, Stop, REFUSED};
use std::ffi::OsStr;
use table_text::Kind;

pub fn answer(asked: &Question) -> Ended {
    let (file, word) = (asked.files[0].as_os_str(), asked.files[1].as_os_str());
    let node = node_of(word).ok_or_else(|| {
        let word = word.to_string_lossy();
        asked.misused(&format!("'{word}' is not the number of a node"))
    })?;
    let program = input::program_of(file)?;
    let kinds = [Kind::Table, Kind::Text, Kind::Part];
    if let Some(problem) = input::other_than(&program, "program", &kinds) {
        return Err(problem.of(file));
    }
    let refused = |words: &str| Stop::of_file(file, REFUSED, words);
    let part = timed_network::part(&program, node);
    if part.is_empty() {
        return Err(refused(&format!("the program has no part for node {node}")));
    }
    if !asked.has("--c") {
        return deliver(part, asked.text("-o"));
    }
    match c_array::written(&program, node, part) {
        Some(text) => deliver(text.as_bytes(), asked.text("-o")),
        None => Err(refused(&format!("the part of node {node} is damaged"))),
    }
}

/// A number of up to three digits, 0 to 255.
fn node_of(word: &OsStr) -> Option<u8> {
    let digits = word.to_str()?;
    let all = digits.len() <= 3 && digits.bytes().all(|byte| byte.is_ascii_digit());
    digits.parse().ok().filter(|_| all)
}

#[cfg(test)]
mod tests {
    use super::*;

    #[test]
    fn nodes() {
        let node = |word: &str| node_of(OsStr::new(word));
        assert_eq!(node("0"), Some(0));
        assert_eq!(node("007"), Some(7));
        for word in ["", "256", "-1", "+1", "0001", "x"] {
            assert_eq!(node(word), None, "{word}");
        }
    }
}
