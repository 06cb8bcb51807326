//! Pairs and runs to a horizon, as the vectors ask and answer them.

use crate::bytes::unhex;
use crate::stored::read_answer;
use timed_network::{MAX_PASSAGES, OBSERVATION};

/// A pair that is asked for, or a run to a horizon, and what has to be answered.
#[derive(Clone, Debug, PartialEq, Eq)]
pub struct Repeated {
    /// The table.
    pub table: Vec<u8>,
    /// The run, if it is one.
    pub run: Option<Long>,
    /// The words of the answer.
    pub answer: String,
}

/// A run to a horizon.
#[derive(Clone, Debug, PartialEq, Eq)]
pub struct Long {
    /// The choices.
    pub choices: Vec<u8>,
    /// The horizon.
    pub horizon: u32,
    /// How many bytes are lent.
    pub lent: usize,
}

/// The words of a request, with or without how many bytes are lent.
pub(super) fn read(words: &[&str], answer: &str) -> Option<Repeated> {
    let (table, run) = match *words {
        ["period", table] => (table, None),
        ["long", table, choices, horizon] => {
            let lent = OBSERVATION * MAX_PASSAGES;
            (table, Some(long(choices, horizon, lent)?))
        }
        ["lent", lent, "long", table, choices, horizon] => {
            let lent = lent.parse().ok()?;
            (table, Some(long(choices, horizon, lent)?))
        }
        _ => return None,
    };
    let numbers = answer.split('|').next().unwrap_or("").split(' ').count();
    let told = match (read_answer(answer), &run) {
        (Some(refused), _) => refused.refusal().is_some(),
        (None, Some(_)) => numbers == 4,
        (None, None) => answer == "none" || numbers == 2,
    };
    told.then_some(Repeated {
        table: unhex(table)?,
        run,
        answer: answer.to_string(),
    })
}

fn long(choices: &str, horizon: &str, lent: usize) -> Option<Long> {
    Some(Long {
        choices: unhex(choices)?,
        horizon: horizon.parse().ok()?,
        lent,
    })
}

#[cfg(test)]
mod tests {
    use super::*;

    fn words(text: &str) -> Vec<&str> {
        text.split(' ').collect()
    }

    #[test]
    fn pairs_and_runs_are_read() {
        let pair = read(&words("period 0102"), "0 10").unwrap();
        assert_eq!((pair.run, &pair.answer[..]), (None, "0 10"));
        let run = read(&words("lent 9 long 0102 00ff 4294967295"), "refused 13 255");
        let long = Long {
            choices: vec![0, 255],
            horizon: u32::MAX,
            lent: 9,
        };
        assert_eq!(run.unwrap().run, Some(long));
        assert!(read(&words("long 0102 - 7"), "1 255 0 0").is_some());
        for (request, answer) in [
            ("period 0102", "accepted"),
            ("period 0102", "0 10 20"),
            ("period 010", "none"),
            ("long 0102 00ff", "1 255 0 0"),
            ("long 0102 00ff 4294967296", "1 255 0 0"),
            ("long 0102 00ff 7", "none"),
        ] {
            assert_eq!(read(&words(request), answer), None, "{request}: {answer}");
        }
    }
}
