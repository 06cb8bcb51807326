//! `vanillatarn spread`: the largest spread of tables, as the proved words tell it.

use super::{hand_on, Handed};
use crate::options::Question;
use crate::output::Ended;
use crate::words::{self, Text};

const BEGINS: &str = "accepted up to a spread of ";

pub fn answer(asked: &Question) -> Ended {
    hand_on(
        asked,
        &Handed {
            text: Text::Spread,
            words: words::spread,
            begins: BEGINS,
            fields,
        },
    )
}

/// The number behind the words.
fn fields(words: &str) -> Vec<(&'static str, String)> {
    let rest = words.strip_prefix(BEGINS).unwrap_or_default();
    let end = rest.find(|sign: char| !sign.is_ascii_digit());
    vec![("spread", rest[..end.unwrap_or(rest.len())].to_string())]
}

#[cfg(test)]
mod tests {
    use super::fields;

    #[test]
    fn the_number_is_read_off_the_words() {
        for words in [
            "accepted up to a spread of 12 ticks\n",
            "accepted up to a spread of 12 ticks: more\n",
        ] {
            assert_eq!(fields(words), [("spread", "12".to_string())]);
        }
    }
}
