//! Texts for UPPAAL as the vectors ask for them and answer.

use crate::bytes::unhex;
use crate::stored::read_answer;
use timed_network::Verdict;

/// A request about the text of a table.
#[derive(Clone, Debug, PartialEq, Eq)]
pub struct Exported {
    /// The table.
    pub table: Vec<u8>,
    /// What is asked.
    pub asked: Asked,
    /// The words of the answer.
    pub answer: String,
}

/// What is asked about a text.
#[derive(Clone, Copy, Debug, PartialEq, Eq)]
pub enum Asked {
    /// How many of each thing it has, so many bytes being lent.
    Counts(usize),
    /// What its network has within so many ticks.
    States(u32),
}

/// The words of a request.
pub(super) fn read(words: &[&str], answer: &str) -> Option<Exported> {
    let (table, asked) = match *words {
        ["uppaal", table, lent] => (table, Asked::Counts(lent.parse().ok()?)),
        ["explore", table, ticks] => (table, Asked::States(ticks.parse().ok()?)),
        _ => return None,
    };
    let told = match read_answer(answer) {
        Some(Verdict::Accepted) => false,
        Some(_) => matches!(asked, Asked::Counts(_)),
        None => match asked {
            Asked::Counts(_) => answer.split('|').skip(1).all(|own| numbers(own, 6)),
            Asked::States(_) => numbers(answer, 4),
        },
    };
    told.then_some(Exported {
        table: unhex(table)?,
        asked,
        answer: answer.to_string(),
    })
}

/// So many numbers with blanks between them.
fn numbers(text: &str, count: usize) -> bool {
    let words: Vec<&str> = text.split(' ').collect();
    words.len() == count && words.iter().all(|word| word.parse::<u64>().is_ok())
}

#[cfg(test)]
mod tests {
    use super::*;

    fn words(text: &str) -> Vec<&str> {
        text.split(' ').collect()
    }

    #[test]
    fn texts_are_read() {
        let exported = |asked, answer: &str| {
            Some(Exported {
                table: vec![1, 2],
                asked,
                answer: answer.to_string(),
            })
        };
        for answer in [
            "0|1 2 3 4 5 6",
            "3|1 2 3 4 5 6|6 5 4 3 2 1",
            "refused 25 255",
        ] {
            let given = read(&words("uppaal 0102 70"), answer);
            assert_eq!(given, exported(Asked::Counts(70), answer));
        }
        let given = read(&words("explore 0102 12"), "1 2 3 4");
        assert_eq!(given, exported(Asked::States(12), "1 2 3 4"));
        for (request, answer) in [
            ("uppaal 0102", "0|1 2 3 4 5 6"),
            ("uppaal 010 7", "0|1 2 3 4 5 6"),
            ("uppaal 0102 7", "0|1 2 3 4 5"),
            ("uppaal 0102 7", "accepted"),
            ("explore 0102 7", "1 2 3"),
            ("explore 0102 7", "refused 25 255"),
            ("explore 0102 x", "1 2 3 4"),
        ] {
            assert_eq!(read(&words(request), answer), None, "{request}: {answer}");
        }
    }
}
