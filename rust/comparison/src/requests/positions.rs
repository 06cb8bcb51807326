//! Where components are at ticks, as the vectors ask and answer it.

use crate::bytes::unhex;
use crate::stored::read_answer;
use timed_network::{Verdict, POSITION};

/// Pairs and what has to be answered.
#[derive(Clone, Debug, PartialEq, Eq)]
pub struct Where {
    /// The table.
    pub table: Vec<u8>,
    /// The pairs, a component and its tick in turn.
    pub numbers: Vec<u32>,
    /// How many bytes are lent.
    pub lent: usize,
    /// The words of the answer.
    pub answer: String,
}

/// The words of a request, with or without how many bytes are lent.
pub(super) fn read(words: &[&str], answer: &str) -> Option<Where> {
    let (lent, table, pairs) = match *words {
        ["where", table, pairs] => (None, table, pairs),
        ["lent", lent, "where", table, pairs] => (Some(lent.parse().ok()?), table, pairs),
        _ => return None,
    };
    let numbers = numbers(pairs)?;
    let told = match read_answer(answer) {
        Some(Verdict::Accepted) => false,
        Some(_) => true,
        None => answer.contains('|'),
    };
    let enough = POSITION * numbers.len();
    told.then_some(Where {
        table: unhex(table)?,
        numbers,
        lent: lent.unwrap_or(enough),
        answer: answer.to_string(),
    })
}

/// Pairs with commas between them, `-` for none.
fn numbers(pairs: &str) -> Option<Vec<u32>> {
    if pairs == "-" {
        return Some(Vec::new());
    }
    let pair = |pair: &str| {
        let (component, tick) = pair.split_once(':')?;
        Some([component.parse().ok()?, tick.parse().ok()?])
    };
    let pairs: Option<Vec<[u32; 2]>> = pairs.split(',').map(pair).collect();
    Some(pairs?.into_flattened())
}

#[cfg(test)]
mod tests {
    use super::*;

    fn words(text: &str) -> Vec<&str> {
        text.split(' ').collect()
    }

    #[test]
    fn pairs_are_read() {
        let asked = |numbers: &[u32], lent, answer: &str| {
            Some(Where {
                table: vec![1, 2],
                numbers: numbers.to_vec(),
                lent,
                answer: answer.to_string(),
            })
        };
        let given = read(&words("where 0102 0:5,4294967295:6"), "4|000200000300");
        assert_eq!(given, asked(&[0, 5, u32::MAX, 6], 12, "4|000200000300"));
        let given = read(&words("lent 2 where 0102 0:5"), "refused 13 255");
        assert_eq!(given, asked(&[0, 5], 2, "refused 13 255"));
        assert_eq!(read(&words("where 0102 -"), "0|-"), asked(&[], 0, "0|-"));
        for (request, answer) in [
            ("where 0102", "0|-"),
            ("where 010 0:5", "0|-"),
            ("where 0102 0:5,", "0|-"),
            ("where 0102 0-5", "0|-"),
            ("where 0102 0:4294967296", "0|-"),
            ("where 0102 0:5", "accepted"),
            ("lent x where 0102 0:5", "0|-"),
        ] {
            assert_eq!(read(&words(request), answer), None, "{request}: {answer}");
        }
    }
}
