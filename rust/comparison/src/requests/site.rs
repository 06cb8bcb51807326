//! Airtimes and sequences of a site's calls as the vectors ask for them and answer.

use crate::bytes::unhex;
use crate::sites::Asked;

/// The airtime of a table, or a sequence of calls, and what has to be answered.
#[derive(Clone, Debug, PartialEq, Eq)]
pub enum Sited {
    /// The airtime of a table.
    Airtime {
        /// The table.
        table: Vec<u8>,
        /// The number, or the refusal.
        answer: String,
    },
    /// Calls of a site.
    Calls {
        /// Its limit.
        limit: u32,
        /// The calls: a table where one is put in, and the place.
        calls: Vec<(Option<Vec<u8>>, u8)>,
        /// The airtime in use after each, or its refusal.
        answers: Vec<String>,
    },
}

/// The calls of a stored sequence.
pub fn calls(stored: &[(Option<Vec<u8>>, u8)]) -> Vec<Asked<'_>> {
    let all = stored.iter().map(|(table, place)| match table {
        Some(table) => Asked::Put(table, *place),
        None => Asked::Take(*place),
    });
    all.collect()
}

/// The words of a request.
pub(super) fn read(words: &[&str], answer: &str) -> Option<Sited> {
    match *words {
        ["air", table] => Some(Sited::Airtime {
            table: unhex(table)?,
            answer: answer.to_string(),
        }),
        ["ledger", limit, ref calls @ ..] => {
            let answers: Vec<String> = match answer {
                "-" => Vec::new(),
                _ => answer.split('|').map(str::to_string).collect(),
            };
            let calls: Option<Vec<_>> = calls.iter().map(|word| read_call(word)).collect();
            let calls = calls.filter(|calls| calls.len() == answers.len())?;
            Some(Sited::Calls {
                limit: limit.parse().ok()?,
                calls,
                answers,
            })
        }
        _ => None,
    }
}

/// `put:PLACE:HEX` or `take:PLACE`.
fn read_call(word: &str) -> Option<(Option<Vec<u8>>, u8)> {
    match word.split(':').collect::<Vec<_>>()[..] {
        ["put", place, table] => Some((Some(unhex(table)?), place.parse().ok()?)),
        ["take", place] => Some((None, place.parse().ok()?)),
        _ => None,
    }
}

#[cfg(test)]
mod tests {
    use super::*;

    fn words(text: &str) -> Vec<&str> {
        text.split(' ').collect()
    }

    #[test]
    fn sites_are_read() {
        let read_words = |request: &str, answer| read(&words(request), answer);
        let airtime = Sited::Airtime {
            table: vec![1, 2],
            answer: "6".to_string(),
        };
        assert_eq!(read_words("air 0102", "6"), Some(airtime));
        let sequence = Sited::Calls {
            limit: 7,
            calls: vec![(Some(vec![1, 2]), 255), (None, 3)],
            answers: vec!["refused 2 255".to_string(), "0".to_string()],
        };
        let request = "ledger 7 put:255:0102 take:3";
        assert_eq!(read_words(request, "refused 2 255|0"), Some(sequence));
        let nothing = Sited::Calls {
            limit: 0,
            calls: Vec::new(),
            answers: Vec::new(),
        };
        assert_eq!(read_words("ledger 0", "-"), Some(nothing));
        for (request, answer) in [
            ("air", "6"),
            ("air 010", "6"),
            ("ledger 0 take:1", "-"),
            ("ledger 0 take:256", "0"),
            ("ledger 0 put:1", "0"),
            ("ledger 4294967296 take:1", "0"),
        ] {
            assert_eq!(read_words(request, answer), None, "{request}");
        }
    }

    #[test]
    fn stored_calls_are_calls() {
        let stored = [(Some(vec![1, 2]), 0), (None, 3), (Some(Vec::new()), 1)];
        let expected = [Asked::Put(&[1, 2], 0), Asked::Take(3), Asked::Put(&[], 1)];
        assert_eq!(calls(&stored), expected);
    }
}
