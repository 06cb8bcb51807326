//! Why an edge is taken, as the vectors ask and answer it.

use crate::bytes::unhex;
use crate::reasons::Question;
use crate::stored::read_answer;
use timed_network::{Verdict, REASONS_ENOUGH};

/// A question and what has to be answered.
#[derive(Clone, Debug, PartialEq, Eq)]
pub struct Why {
    /// The table.
    pub table: Vec<u8>,
    /// What is asked about.
    pub question: Question,
    /// How many bytes are lent.
    pub lent: usize,
    /// The words of the answer.
    pub answer: String,
}

/// The words of a request, with or without how many bytes are lent.
pub(super) fn read(words: &[&str], answer: &str) -> Option<Why> {
    let (lent, [table, component, tick]) = match *words {
        ["why", a, b, c] => (REASONS_ENOUGH, [a, b, c]),
        ["lent", lent, "why", a, b, c] => (lent.parse().ok()?, [a, b, c]),
        _ => return None,
    };
    let refused = match read_answer(answer) {
        Some(Verdict::Accepted) => return None,
        refused => refused.is_some(),
    };
    let told = refused || answer.contains('|');
    told.then_some(Why {
        table: unhex(table)?,
        question: Question {
            component: component.parse().ok()?,
            tick: tick.parse().ok()?,
        },
        lent,
        answer: answer.to_string(),
    })
}

#[cfg(test)]
mod tests {
    use super::*;

    fn words(text: &str) -> Vec<&str> {
        text.split(' ').collect()
    }

    #[test]
    fn questions_are_read() {
        let why = |tick, lent, answer: &str| {
            let (table, component) = (vec![1, 2], 4_294_967_295);
            Some(Why {
                table,
                question: Question { component, tick },
                lent,
                answer: answer.to_string(),
            })
        };
        let answer = "3|0 data 1|2 taken";
        let given = read(&words("why 0102 4294967295 7"), answer);
        assert_eq!(given, why(7, 96, answer));
        let given = read(&words("lent 2 why 0102 4294967295 7"), "refused 13 255");
        assert_eq!(given, why(7, 2, "refused 13 255"));
        for (request, answer) in [
            ("why 0102 1", "0|0 taken"),
            ("why 0102 1 4294967296", "0|0 taken"),
            ("why 010 1 2", "0|0 taken"),
            ("why 0102 1 2", "accepted"),
            ("why 0102 1 2", "0"),
            ("lent x why 0102 1 2", "0|0 taken"),
        ] {
            assert_eq!(read(&words(request), answer), None, "{request}: {answer}");
        }
    }
}
