//! What has to be said of a case, and what is told when it is not.

use crate::bytes::hex;
use crate::readers::NUMBERS;
use std::fmt;
use timed_network::Verdict;

/// What is known of an answer before.
#[derive(Clone, Copy, Debug, PartialEq, Eq)]
pub enum Expected {
    /// Nothing but that it is accepted or one of the numbers that there are.
    Anything,
    /// The whole answer.
    Verdict(Verdict),
    /// The number of the refusal.
    Number(u8),
    /// No refusal with this number, 10 at most, or a lower one.
    Past(u8),
}

impl Expected {
    /// Whether the answer is as it has to be.
    pub fn allows(self, answer: Verdict) -> bool {
        let number = match answer {
            Verdict::Accepted => 0,
            Verdict::Refused { number, .. } => number,
        };
        let there_is = answer == Verdict::Accepted || NUMBERS[1..].contains(&number);
        there_is
            && match self {
                Expected::Anything => true,
                Expected::Verdict(verdict) => answer == verdict,
                Expected::Number(wanted) => number == wanted,
                Expected::Past(passed) => number == 0 || number > passed,
            }
    }
}

impl fmt::Display for Expected {
    fn fmt(&self, out: &mut fmt::Formatter<'_>) -> fmt::Result {
        match self {
            Expected::Anything => write!(out, "accepted, or refused with 1 to 12 or 15 to 17"),
            Expected::Verdict(verdict) => write!(out, "{verdict}"),
            Expected::Number(number) => write!(out, "refused {number}"),
            Expected::Past(number) => write!(out, "not refused with 1 to {number}"),
        }
    }
}

/// A case on which the answers differ from each other, or from what is known.
#[derive(Clone, Debug, PartialEq, Eq)]
pub struct Difference {
    /// The name of the class.
    pub class: &'static str,
    /// The table handed in, or the program.
    pub input: Vec<u8>,
    /// The call made.
    pub call: String,
    /// What the library says.
    pub library: String,
    /// What the other implementation says.
    pub second: String,
    /// What has to be said, where something is known.
    pub expected: Option<String>,
}

impl fmt::Display for Difference {
    fn fmt(&self, out: &mut fmt::Formatter<'_>) -> fmt::Result {
        writeln!(out, "a difference in the class: {}", self.class)?;
        writeln!(out, "input: {}", hex(&self.input))?;
        writeln!(out, "call: {}", self.call)?;
        writeln!(out, "library: {}", self.library)?;
        write!(out, "other implementation: {}", self.second)?;
        match &self.expected {
            Some(expected) => write!(out, "\nexpected: {expected}"),
            None => Ok(()),
        }
    }
}

/// Why a class ended before its last case.
#[derive(Clone, Debug, PartialEq, Eq)]
pub enum Stop {
    /// The answers differ.
    Differs(Box<Difference>),
    /// A file cannot be read or understood.
    Unreadable(String),
}

/// Whether a class went on to its last case.
pub type Outcome = Result<(), Stop>;
