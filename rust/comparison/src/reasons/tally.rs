//! How often each reason was told, and how lent bytes came back.

use super::Answer;
use crate::readers::{NO_QUESTION, TOO_SHORT};
use std::fmt;
use timed_network::Verdict;

/// The reasons, by their numbers.
const NAMES: [&str; 5] = [
    "taken",
    "data bound",
    "no window",
    "ready later",
    "numbered higher",
];

/// What came of questions.
#[derive(Clone, Copy, Debug, Default, PartialEq, Eq)]
pub struct Asked {
    /// The edges told, by their reasons.
    pub edges: [u64; 5],
    /// Those with a data bound that is not their first.
    pub later_bound: u64,
    /// Answers that were written.
    pub written: u64,
    /// Too few bytes lent.
    pub short: u64,
    /// A component that there is not, or a tick from the horizon on.
    pub absent: u64,
    /// The table is refused.
    pub refused: u64,
}

impl Asked {
    /// All questions.
    pub fn all(&self) -> u64 {
        self.written + self.short + self.absent + self.refused
    }

    /// Counts an answer.
    pub fn count(&mut self, answer: &Answer) {
        let place = match answer.told.verdict {
            Verdict::Accepted => &mut self.written,
            Verdict::Refused { number, .. } if number == TOO_SHORT => &mut self.short,
            Verdict::Refused { number, .. } if number == NO_QUESTION => &mut self.absent,
            Verdict::Refused { .. } => &mut self.refused,
        };
        *place += 1;
        for (_, reason) in answer.edges().unwrap_or_default() {
            self.edges[usize::from(reason.number())] += 1;
            self.later_bound += u64::from(reason.bound().is_some_and(|bound| bound > 0));
        }
    }

    /// Adds what another class counted.
    pub fn add(&mut self, other: &Asked) {
        for (all, own) in self.edges.iter_mut().zip(other.edges) {
            *all += own;
        }
        self.later_bound += other.later_bound;
        self.written += other.written;
        self.short += other.short;
        self.absent += other.absent;
        self.refused += other.refused;
    }

    /// What came never.
    pub fn gaps(&self) -> Vec<String> {
        let named = NAMES.iter().zip(self.edges);
        let edges = named.map(|(name, count)| (count, format!("no edge had the reason: {name}")));
        let others = [
            (self.later_bound, "no data bound failed behind another"),
            (self.short, "no reasons were too long"),
            (self.absent, "no question was refused with 21"),
            (self.refused, "no refused table was asked for reasons"),
        ];
        let others = others.map(|(count, gap)| (count, gap.to_string()));
        let never = edges.chain(others).filter(|(count, _)| *count == 0);
        never.map(|(_, gap)| gap).collect()
    }
}

impl fmt::Display for Asked {
    fn fmt(&self, out: &mut fmt::Formatter<'_>) -> fmt::Result {
        write!(
            out,
            "{} questions: written {}, too short {}, refused 21: {}, table refused {}; edges:",
            self.all(),
            self.written,
            self.short,
            self.absent,
            self.refused
        )?;
        for (place, (name, count)) in NAMES.iter().zip(self.edges).enumerate() {
            let comma = if place == 0 { "" } else { "," };
            write!(out, "{comma} {name} {count}")?;
        }
        write!(out, " ({} data bounds behind another)", self.later_bound)
    }
}
