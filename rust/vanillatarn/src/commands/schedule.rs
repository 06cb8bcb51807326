//! `vanillatarn schedule`: the schedule of tables, as the proved words tell it.

use super::{hand_on, Handed};
use crate::json::{object, PASSAGE};
use crate::options::Question;
use crate::output::Ended;
use crate::words::{self, Text};

pub fn answer(asked: &Question) -> Ended {
    hand_on(
        asked,
        &Handed {
            text: Text::Schedule,
            words: words::schedule,
            begins: "c e l ",
            fields,
        },
    )
}

/// The passages, a line each behind the first.
fn fields(words: &str) -> Vec<(&'static str, String)> {
    let passages: Vec<String> = words.lines().skip(1).map(passage).collect();
    vec![("passages", format!("[{}]", passages.join(",")))]
}

/// A number of a line is itself, and `-` is none.
fn passage(line: &str) -> String {
    let number = |word: &str| match word {
        "-" => "null".to_string(),
        number => number.to_string(),
    };
    let numbers = line.split(' ').map(number);
    let fields: Vec<(&str, String)> = PASSAGE.into_iter().zip(numbers).collect();
    object(&fields)
}

#[cfg(test)]
mod tests {
    use super::fields;

    #[test]
    fn passages_are_read_off_the_words() {
        let words = "c e l entry ready end msg\n0 1 2 3 4 5 6\n1 0 0 0 2 4 -\n";
        let first =
            r#"{"component":0,"edge":1,"location":2,"entry":3,"ready":4,"end":5,"message":6}"#;
        let second =
            r#"{"component":1,"edge":0,"location":0,"entry":0,"ready":2,"end":4,"message":null}"#;
        assert_eq!(fields(words), [("passages", format!("[{first},{second}]"))]);
    }
}
