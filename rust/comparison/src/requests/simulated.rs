//! Simulations as the vectors ask for them and answer.

use crate::bytes::unhex;
use crate::simulations::Experiment;
use crate::stored::read_answer;
use timed_network::Verdict;

/// A simulation and what has to be answered.
#[derive(Clone, Debug, PartialEq, Eq)]
pub struct Simulated {
    /// The table.
    pub table: Vec<u8>,
    /// What is tried.
    pub experiment: Experiment,
    /// The words of the answer.
    pub answer: String,
}

/// The words of a request, with or without a seed.
pub(super) fn read(words: &[&str], answer: &str) -> Option<Simulated> {
    let (table, numbers) = match *words {
        ["sim", table, ref numbers @ ..] => (table, numbers),
        _ => return None,
    };
    let numbers: Option<Vec<u32>> = numbers.iter().map(|word| word.parse().ok()).collect();
    let (lo, hi, runs, seed) = match numbers?[..] {
        [lo, hi, runs] => (lo, hi, runs, None),
        [lo, hi, runs, seed] => (lo, hi, runs, Some(seed)),
        _ => return None,
    };
    let told = match read_answer(answer) {
        Some(Verdict::Accepted) => false,
        Some(_) => true,
        None => answer.contains("|state "),
    };
    told.then_some(Simulated {
        table: unhex(table)?,
        experiment: Experiment { lo, hi, runs, seed },
        answer: answer.to_string(),
    })
}

#[cfg(test)]
mod tests {
    use super::*;

    fn words(text: &str) -> Vec<&str> {
        text.split(' ').collect()
    }

    #[test]
    fn simulations_are_read() {
        let simulated = |seed, answer: &str| {
            let (lo, hi, runs) = (0, 4_294_967_295, 7);
            Some(Simulated {
                table: vec![1, 2],
                experiment: Experiment { lo, hi, runs, seed },
                answer: answer.to_string(),
            })
        };
        let answer = "3 1 2|state 77";
        let given = read(&words("sim 0102 0 4294967295 7"), answer);
        assert_eq!(given, simulated(None, answer));
        let given = read(&words("sim 0102 0 4294967295 7 9"), "refused 23 255");
        assert_eq!(given, simulated(Some(9), "refused 23 255"));
        for (request, answer) in [
            ("sim 0102 0 1", "0 0|state 1"),
            ("sim 0102 0 1 2 3 4", "0 0|state 1"),
            ("sim 0102 0 4294967296 1", "0 0|state 1"),
            ("sim 010 0 1 2", "0 0|state 1"),
            ("sim 0102 0 1 2", "accepted"),
            ("sim 0102 0 1 2", "0 0"),
        ] {
            assert_eq!(read(&words(request), answer), None, "{request}: {answer}");
        }
    }
}
