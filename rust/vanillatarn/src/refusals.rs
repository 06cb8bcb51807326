//! How the refusal of a call is told: in words, or as a field of an object.

#[cfg(feature = "library")]
mod of_calls;
#[cfg(feature = "library")]
pub use of_calls::{field, refuse, whole_words, words};

use crate::input::{self, Input};
use crate::json::{object, or_null};
use crate::output::{tell, Ended, Stop, REFUSED};
use crate::shown::pasted;
use std::ffi::OsStr;

/// The refusals of a call that say nothing about its table.
const OF_CALLS: [u8; 14] = [13, 14, 18, 19, 20, 21, 22, 23, 24, 25, 26, 27, 28, 29];

/// Ends with a refusal: the words that tell it, its number, and the table's file with the spread at
/// which it is refused. Where the table is refused it is told what tells more of it, and of a horizon
/// that is refused, 29, what to ask.
pub fn refuse_with(words: &[u8], number: u8, file: &OsStr, spread: u32) -> Ended {
    tell(words)?;
    if number == 29 {
        let file = pasted(file);
        let words = format!("whether everything comes again: vanillatarn period {file}");
        return Err(Stop::refused(words));
    }
    if OF_CALLS.contains(&number) || file == "-" {
        return Ok(REFUSED);
    }
    let spread = match spread {
        0 => String::new(),
        spread => format!("--spread {spread} "),
    };
    let file = pasted(file);
    Err(Stop::refused(format!(
        "the table is refused; more about it: vanillatarn verdict {spread}{file}"
    )))
}

/// Ends where a file of another kind stands in the place of a table that was refused with this
/// number.
pub fn name_kind(file: &OsStr, input: &Input, number: u8) -> Result<(), Stop> {
    match input::another_kind(input.table(), number) {
        Some(problem) => Err(problem.of(file)),
        None => Ok(()),
    }
}

/// The number and the component of a refusal in words: `refused NUMBER COMPONENT`.
pub fn number_in(words: &[u8]) -> Option<u8> {
    let first = words.split(|byte| *byte == b'\n').next()?;
    let mut parts = std::str::from_utf8(first).ok()?.split(' ');
    let refused = parts.next()? == "refused";
    let number = parts.next()?.parse().ok()?;
    (refused && number > 0).then_some(number)
}

/// A refusal in words as a field of an object: its number and component, and none for 255.
pub fn field_in(words: &str) -> String {
    let first = words.lines().next().unwrap_or_default();
    let mut numbers = first.split(' ').skip(1);
    let number = numbers.next().unwrap_or_default().to_string();
    let component = numbers.next().filter(|component| *component != "255");
    object(&[("number", number), ("component", or_null(component))])
}

#[cfg(test)]
mod tests {
    use super::*;

    #[test]
    fn fields_in_words() {
        let words = "refused 16 0\nThe answer is no";
        assert_eq!(field_in(words), r#"{"number":16,"component":0}"#);
        assert_eq!(
            field_in("refused 13 255\n"),
            r#"{"number":13,"component":null}"#
        );
    }

    #[test]
    fn numbers_in_words() {
        assert_eq!(number_in(b"refused 16 0\nThe answer is no"), Some(16));
        for words in [
            "",
            "accepted",
            "refused",
            "refused x 0",
            "refused 0 0",
            "perhaps 1 0",
        ] {
            assert_eq!(number_in(words.as_bytes()), None, "{words}");
        }
    }
}
