//! Runs of nodes that wake apart: `run HEX CHOICES G`, behind that the offsets with
//! commas between them unless there are none, in front `lent BYTES` where it is
//! said how many bytes are lent; with it there need not be a spread.

use crate::bytes::unhex;
use crate::runs::AMPLE;
use crate::stored::read_answer;
use timed_network::{RunNumbers, Verdict};

/// A run of nodes that wake apart, and what has to be answered.
#[derive(Clone, Debug, PartialEq, Eq)]
pub struct Apart {
    /// The table.
    pub table: Vec<u8>,
    /// The choices.
    pub choices: Vec<u8>,
    /// The bound on the offsets.
    pub spread: u32,
    /// The offsets, as far as they are said.
    pub offsets: Vec<u32>,
    /// How many bytes are lent.
    pub lent: usize,
    /// The numbers of the answer with the observations, each as far as it is stored, or
    /// a refusal.
    pub answer: Result<(RunNumbers, Vec<Vec<u8>>), Verdict>,
}

/// The request of these words, if it is one.
pub(super) fn read(words: &[&str], answer: &str) -> Option<Apart> {
    let (lent, words) = match words {
        ["lent", lent, words @ ..] => (lent.parse().ok()?, words),
        words => (AMPLE, words),
    };
    let (table, choices, spread, offsets) = match words {
        ["run", table, choices] => (table, choices, &"0", Vec::new()),
        ["run", table, choices, spread] => (table, choices, spread, Vec::new()),
        ["run", table, choices, spread, offsets] => (table, choices, spread, numbers(offsets)?),
        _ => return None,
    };
    Some(Apart {
        table: unhex(table)?,
        choices: unhex(choices)?,
        spread: spread.parse().ok()?,
        offsets,
        lent,
        answer: match read_answer(answer) {
            Some(Verdict::Accepted) => return None,
            Some(refused) => Err(refused),
            None => Ok(ran(answer)?),
        },
    })
}

/// Numbers with commas between them.
fn numbers(words: &str) -> Option<Vec<u32>> {
    words.split(',').map(|word| word.parse().ok()).collect()
}

/// `end node tick used`, then each observation, with `|` between them.
fn ran(answer: &str) -> Option<(RunNumbers, Vec<Vec<u8>>)> {
    let mut parts = answer.split('|');
    let words = parts.next()?.split(' ').map(|word| word.parse().ok());
    let [end, node, tick, used]: [u32; 4] = words.collect::<Option<Vec<_>>>()?.try_into().ok()?;
    let observations: Option<Vec<Vec<u8>>> = parts.map(unhex).collect();
    let observations = observations?;
    let answer = RunNumbers {
        number: 0,
        component: 255,
        end: end as u8,
        node: node as u8,
        tick,
        used,
        size: observations.len() as u32,
    };
    Some((answer, observations))
}

#[cfg(test)]
mod tests {
    use super::*;
    use crate::readers::refused;

    fn words(text: &str) -> Vec<&str> {
        text.split(' ').collect()
    }

    #[test]
    fn runs_are_read() {
        let answer = "2 1 4 9|0506";
        let found = read(&words("run 0102 00ff 3 0,3"), answer).unwrap();
        assert_eq!((found.table, found.choices), (vec![1, 2], vec![0, 255]));
        assert_eq!((found.spread, found.offsets), (3, vec![0, 3]));
        assert_eq!(found.lent, AMPLE);
        let (answer, observations) = found.answer.unwrap();
        assert_eq!((answer.end, answer.node), (2, 1));
        assert_eq!((answer.tick, answer.used, answer.size), (4, 9, 1));
        assert_eq!(observations, [[5, 6]]);
        let found = read(&words("lent 31 run 0102 - 1001"), "refused 19 255").unwrap();
        assert_eq!((found.lent, found.offsets), (31, Vec::new()));
        assert_eq!(found.answer, Err(refused(19, 255)));
        let found = read(&words("lent 31 run 0102 -"), "refused 13 255").unwrap();
        assert_eq!((found.lent, found.spread), (31, 0));
    }

    #[test]
    fn other_lines_are_not_read() {
        for text in ["run 0102 00ff 3 0,x", "lent x run 01 - 3", "run 01 - 3 0 0"] {
            assert_eq!(read(&words(text), "refused 3 255"), None, "{text}");
        }
        assert_eq!(read(&words("run 01 - 3"), "accepted"), None);
        assert_eq!(read(&words("run 01 - 3"), "1 255 0"), None);
    }
}
