//! What was counted of the calls at a spread.

use crate::readers::{NUMBERS, TOO_SHORT, TOO_WIDE};
use std::fmt;
use timed_network::{Meetings, Verdict, MAX_SPREAD};

/// How many answers there are at a spread: those of the check, and one more.
const ANSWERS: usize = NUMBERS.len() + 1;

/// The numbers that are looked for at a spread above 0: those of windows that are
/// too near, and the spread's own.
const NEAR: [u8; 7] = [10, 11, 12, 15, 16, 17, TOO_WIDE];

/// What came of the calls at a spread.
#[derive(Clone, Copy, Debug, Default, PartialEq, Eq)]
pub struct Spreads {
    /// The verdicts at a spread above 0: first those of [`NUMBERS`], then 19.
    pub answers: [u64; ANSWERS],
    /// The verdicts at spread 0, each held to that of the check.
    pub at_0: u64,
    /// Largest spreads: 0, between, the largest that there is, and tables refused.
    pub largest: [u64; 4],
    /// Lists of windows that met: with passages, with none, too short.
    pub met: [u64; 3],
}

/// The numbers of the answers.
fn numbers() -> impl Iterator<Item = u8> {
    NUMBERS.into_iter().chain([TOO_WIDE])
}

impl Spreads {
    /// All calls.
    pub fn all(&self) -> u64 {
        let Spreads {
            answers,
            at_0,
            largest,
            met,
        } = self;
        let others = at_0 + largest.iter().sum::<u64>() + met.iter().sum::<u64>();
        answers.iter().sum::<u64>() + others
    }

    /// The verdicts, those at spread 0 among them.
    pub fn verdicts(&self) -> u64 {
        self.answers.iter().sum::<u64>() + self.at_0
    }

    /// How often this number was answered at a spread above 0.
    pub fn answered(&self, number: u8) -> u64 {
        let counts = numbers().zip(self.answers);
        let own = counts.filter(|(given, _)| *given == number);
        own.map(|(_, count)| count).sum()
    }

    /// Counts a verdict; whether there is such a one.
    pub fn count(&mut self, spread: u32, verdict: Verdict) -> bool {
        let given = match verdict {
            Verdict::Accepted => 0,
            Verdict::Refused { number, .. } => number,
        };
        let Some(place) = numbers().position(|number| number == given) else {
            return false;
        };
        match spread {
            0 => self.at_0 += 1,
            _ => self.answers[place] += 1,
        }
        true
    }

    /// Counts a largest spread.
    pub fn count_largest(&mut self, answer: &Result<u32, Verdict>) {
        let place = match answer {
            Ok(0) => 0,
            Ok(MAX_SPREAD) => 2,
            Ok(_) => 1,
            Err(_) => 3,
        };
        self.largest[place] += 1;
    }

    /// Counts a list.
    pub fn count_met(&mut self, answer: &Meetings) {
        let place = match answer.verdict {
            Verdict::Refused {
                number: TOO_SHORT, ..
            } => 2,
            _ if answer.size == 0 => 1,
            _ => 0,
        };
        self.met[place] += 1;
    }

    /// Adds what another one counted.
    pub fn add(&mut self, other: &Spreads) {
        let pairs = self.answers.iter_mut().zip(other.answers);
        let pairs = pairs.chain(self.largest.iter_mut().zip(other.largest));
        for (all, own) in pairs.chain(self.met.iter_mut().zip(other.met)) {
            *all += own;
        }
        self.at_0 += other.at_0;
    }

    /// What should have been seen often enough and was not.
    pub fn gaps(&self, least: u64) -> Vec<String> {
        let near = NEAR.map(|number| {
            let what = format!("tables refused with {number} at a spread");
            (self.answered(number), what)
        });
        let [none, some, most, refused] = self.largest;
        let [listed, empty, short] = self.met;
        let others = [
            (self.answers[0], "tables accepted at a spread"),
            (self.at_0, "verdicts at spread 0"),
            (none, "largest spreads of 0"),
            (some, "largest spreads between"),
            (most, "largest spreads of 1,000"),
            (refused, "largest spreads of refused tables"),
            (listed, "windows listed"),
            (empty, "lists with nothing to list"),
            (short, "lists too short for the windows"),
        ];
        let others = others.map(|(count, what)| (count, what.to_string()));
        let all = near.into_iter().chain(others);
        let few = all.filter(|(count, _)| *count < least);
        few.map(|(count, what)| format!("{what}: {count}, fewer than {least}"))
            .collect()
    }
}

/// All counts: the answers that were given, then the others.
impl fmt::Display for Spreads {
    fn fmt(&self, out: &mut fmt::Formatter<'_>) -> fmt::Result {
        let all: u64 = self.answers.iter().sum();
        write!(
            out,
            "{all} verdicts at a spread: accepted {}",
            self.answers[0]
        )?;
        for (number, count) in numbers().zip(self.answers).skip(1) {
            if count > 0 {
                write!(out, ", refused {number}: {count}")?;
            }
        }
        let [none, some, most, refused] = self.largest;
        let [listed, empty, short] = self.met;
        write!(out, "; {} at spread 0", self.at_0)?;
        let largest = none + some + most + refused;
        write!(
            out,
            "; {largest} largest spreads: 0 {none}, between {some}, 1,000 {most}, refused {refused}"
        )?;
        let lists = listed + empty + short;
        write!(
            out,
            "; {lists} lists of windows that met: written {listed}, nothing {empty}, too short {short}"
        )
    }
}

#[cfg(test)]
mod tests {
    use super::*;
    use crate::readers::refused;

    #[test]
    fn what_is_counted_is_told() {
        let mut spreads = Spreads::default();
        assert!(spreads.count(3, Verdict::Accepted));
        assert!(spreads.count(1001, refused(19, 255)));
        assert!(spreads.count(2, refused(16, 0)));
        assert!(spreads.count(0, refused(16, 0)));
        assert!(!spreads.count(2, refused(13, 255)));
        for answer in [Ok(0), Ok(7), Ok(7), Ok(MAX_SPREAD), Err(refused(4, 1))] {
            spreads.count_largest(&answer);
        }
        for (size, verdict) in [(2, Verdict::Accepted), (0, refused(13, 255))] {
            let table = refused(16, 0);
            spreads.count_met(&Meetings {
                table,
                verdict,
                size,
            });
        }
        let told =
            "3 verdicts at a spread: accepted 1, refused 16: 1, refused 19: 1; 1 at spread 0; \
                    5 largest spreads: 0 1, between 2, 1,000 1, refused 1; \
                    2 lists of windows that met: written 1, nothing 0, too short 1";
        assert_eq!(spreads.to_string(), told);
        assert_eq!((spreads.all(), spreads.verdicts()), (11, 4));
        assert_eq!(spreads.answered(16), 1);
        assert_eq!(spreads.gaps(1).len(), 6);
        assert_eq!(spreads.gaps(0), Vec::<String>::new());
        let mut twice = spreads;
        twice.add(&spreads);
        assert_eq!(twice.all(), 22);
        assert_eq!(
            spreads.gaps(1)[0],
            "tables refused with 10 at a spread: 0, fewer than 1"
        );
    }
}
