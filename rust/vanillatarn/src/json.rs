//! Parts of JSON objects.

use crate::input::Problem;
use std::ffi::OsStr;

/// The names of a passage's numbers, in their order.
pub const PASSAGE: [&str; 7] = [
    "component",
    "edge",
    "location",
    "entry",
    "ready",
    "end",
    "message",
];

pub fn object(fields: &[(&str, String)]) -> String {
    let field = |(name, value): &(&str, String)| format!("\"{name}\":{value}");
    let fields: Vec<String> = fields.iter().map(field).collect();
    format!("{{{}}}", fields.join(","))
}

pub fn array(numbers: &[impl ToString]) -> String {
    let numbers: Vec<String> = numbers.iter().map(ToString::to_string).collect();
    format!("[{}]", numbers.join(","))
}

pub fn or_null(number: Option<impl ToString>) -> String {
    number.map_or("null".to_string(), |number| number.to_string())
}

/// A string between quotes. What JSON does not take as it is is escaped.
pub fn string(text: &str) -> String {
    let mut quoted = String::from("\"");
    for character in text.chars() {
        match character {
            '"' | '\\' => quoted.extend(['\\', character]),
            control if control.is_control() => {
                quoted.push_str(&format!("\\u{:04x}", u32::from(character)))
            }
            _ => quoted.push(character),
        }
    }
    quoted.push('"');
    quoted
}

/// The object of a file about which there is no answer: what is wrong with it, and of a text the
/// line.
pub fn problem(file: &OsStr, problem: &Problem) -> Vec<u8> {
    let mut fields = vec![
        ("file", string(&file.to_string_lossy())),
        ("error", string(&problem.words)),
    ];
    if let Some(line) = problem.line {
        fields.push(("line", line.to_string()));
    }
    line(&fields)
}

/// An object on a line of its own.
pub fn line(fields: &[(&str, String)]) -> Vec<u8> {
    format!("{}\n", object(fields)).into_bytes()
}

#[cfg(test)]
mod tests {
    use super::*;

    #[test]
    fn strings_are_escaped() {
        assert_eq!(string("a \"b\" \\ é"), r#""a \"b\" \\ é""#);
        assert_eq!(string("a\nb\t\x01"), r#""a\u000ab\u0009\u0001""#);
    }
}
