//! The verdict in words, and the numbers that are read off them: the words have a definition of
//! their own (`crates/verdict_text`).

use crate::lines::Stop;
use crate::words::{self, failed, Fault, Text};
use std::str::FromStr;

/// What is told of a table, and the number of the refusal in it, 0 for none.
#[derive(Debug, PartialEq, Eq)]
pub struct Told {
    pub text: Vec<u8>,
    pub number: u8,
}

impl Told {
    /// What is told of a table at a spread. What has not the form of a verdict comes of something
    /// that is no such program.
    pub fn of(table: &[u8], spread: u32) -> Result<Told, Fault> {
        let text = words::verdict(table, spread)?;
        let number =
            number_of(&text).ok_or_else(|| failed(Text::Verdict, "what it wrote is no verdict"))?;
        Ok(Told { text, number })
    }
}

/// The number of a verdict in words: `accepted`, or `refused NUMBER COMPONENT`
/// with the question behind it.
fn number_of(text: &[u8]) -> Option<u8> {
    let mut lines = std::str::from_utf8(text).ok()?.lines();
    let first: Vec<&str> = lines.next()?.split(' ').collect();
    match (first.as_slice(), lines.next()) {
        (["accepted"], _) => Some(0),
        (["refused", number, component], Some(question))
            if component.parse::<u8>().is_ok() && question.starts_with("The answer is no: ") =>
        {
            number.parse().ok().filter(|number| *number > 0)
        }
        _ => None,
    }
}

impl Told {
    /// Where the check stopped: after 4 to 6 the line that names a byte, after 7
    /// to 9 the one that names an opening.
    pub fn stop(&self) -> Option<Stop> {
        let text = std::str::from_utf8(&self.text).ok()?;
        let mut lines = text.lines().skip(3);
        match self.number {
            4..=6 => place(lines.find(|line| line.contains(" (byte "))?),
            7..=9 => opening(lines.find(|line| line.contains(", passage "))?),
            _ => None,
        }
    }
}

/// The first 7 bytes of a component begin with its length, which is there.
fn place(line: &str) -> Option<Stop> {
    let byte = number_after(line, " (byte ")?;
    let missing = line.ends_with(", there: 0.") && !line.contains(", its first 7 bytes (");
    Some(if missing {
        Stop::Missing(byte)
    } else {
        Stop::Byte(byte)
    })
}

fn opening(line: &str) -> Option<Stop> {
    let edge = number_after(line, " and takes edge ");
    let update = number_after(line, ", whose update ");
    Some(Stop::Opening {
        component: number_after(line, "Component ")?,
        location: number_after(line, " location ")?,
        update: edge.zip(update),
    })
}

/// The number that stands behind these words.
fn number_after<N: FromStr>(line: &str, words: &str) -> Option<N> {
    let (_, rest) = line.split_once(words)?;
    let end = rest
        .find(|character: char| !character.is_ascii_digit())
        .unwrap_or(rest.len());
    rest[..end].parse().ok()
}

#[cfg(test)]
mod tests {
    use super::*;

    fn words_of(number: u8, line: &str) -> Told {
        let text = format!(
            "refused {number} 1\nThe answer is no: Is it?\nComponent 1 is concerned.\n{line}\n"
        )
        .into_bytes();
        assert_eq!(number_of(&text), Some(number));
        Told { text, number }
    }

    #[test]
    fn verdicts_have_a_form() {
        assert_eq!(number_of(b"accepted\n"), Some(0));
        for text in [
            "",
            "perhaps\n",
            "accepted it\n",
            "refused 9 9\n",
            "refused 0 9\nThe answer is no: Is it?\n",
            "refused 9 900\nThe answer is no: Is it?\n",
            "refused 9\nThe answer is no: Is it?\n",
            "refused 9 9\nThe answer is yes\n",
        ] {
            assert_eq!(number_of(text.as_bytes()), None, "{text}");
        }
    }

    #[test]
    fn places_are_read_off_the_words() {
        for (number, line, stop) in [
            (
                5,
                "Component 0, its first 7 bytes (byte 9): count of locations is 17, allowed are 1 to 16.",
                Stop::Byte(9),
            ),
            (
                4,
                "Component 0, edge 2 (byte 45): bytes needed: 7, there: 0.",
                Stop::Missing(45),
            ),
            (
                4,
                "Component 0, edge 2 (byte 45): bytes needed: 7, there: 10.",
                Stop::Byte(45),
            ),
            (
                4,
                "Component 1, its first 7 bytes (byte 45): bytes needed: 7, there: 0.",
                Stop::Byte(45),
            ),
            (
                4,
                "Component 0, behind it (byte 45): bytes left over: 58.",
                Stop::Byte(45),
            ),
            (
                6,
                "Component 1, edge 0, its pair 1 (byte 75): channel 0 is listed before.",
                Stop::Byte(75),
            ),
        ] {
            assert_eq!(words_of(number, line).stop(), Some(stop), "{line}");
        }
    }

    #[test]
    fn openings_are_read_off_the_words() {
        let opening = |update| Stop::Opening {
            component: 1,
            location: 2,
            update,
        };
        for (number, line, update) in [
            (
                7,
                "Component 1, passage 17: it would enter location 2 at tick 340.",
                None,
            ),
            (
                8,
                "Component 1, passage 17: it enters location 2 at tick 340, which no edge leaves.",
                None,
            ),
            (
                9,
                "Component 1, passage 17: it enters location 2 at tick 340 and takes edge 4, whose update 0 leaves -32768 to 32767.",
                Some((4, 0)),
            ),
        ] {
            assert_eq!(words_of(number, line).stop(), Some(opening(update)), "{line}");
        }
        let met = "The send window of component 0, edge 2, channel 3, ticks 10 to 14.";
        assert_eq!(words_of(11, met).stop(), None);
    }
}
