//! What texts for UPPAAL came to.

use crate::readers::{TOO_SHORT, WITH_BUDGETS};
use same_paths::Compared;
use std::fmt;
use timed_network::Verdict;

/// How bytes that were lent for texts came back, and what their networks have.
#[derive(Clone, Copy, Debug, Default, PartialEq, Eq)]
pub struct Exports {
    /// With a text.
    pub written: u64,
    /// As they were, too short for it.
    pub short: u64,
    /// As they were, an edge having a budget.
    pub budgeted: u64,
    /// As they were, the table being refused.
    pub refused: u64,
    /// Texts that are those of another version of the same table.
    pub same: u64,
    /// Texts that were read back.
    pub read: u64,
    /// The states from which both networks have the same moves.
    pub states: u64,
    /// The moves of one process, and those of two.
    pub moves: [u64; 2],
    /// Steps of a table's network that the text's has not, since they enter a location
    /// with its invariant broken.
    pub broken: u64,
}

impl Exports {
    /// All that was lent.
    pub fn all(&self) -> u64 {
        self.written + self.short + self.budgeted + self.refused
    }

    /// Counts bytes that came back with this verdict.
    pub fn count(&mut self, verdict: Verdict) {
        let place = match verdict {
            Verdict::Accepted => &mut self.written,
            Verdict::Refused { number, .. } if number == TOO_SHORT => &mut self.short,
            Verdict::Refused { number, .. } if number == WITH_BUDGETS => &mut self.budgeted,
            Verdict::Refused { .. } => &mut self.refused,
        };
        *place += 1;
    }

    /// Counts a text that was read back.
    pub fn count_read(&mut self, found: &Compared) {
        self.read += 1;
        self.states += found.states as u64;
        self.moves[0] += found.alone as u64;
        self.moves[1] += found.joint as u64;
        self.broken += found.broken as u64;
    }

    /// Adds what another class counted.
    pub fn add(&mut self, other: &Exports) {
        self.written += other.written;
        self.short += other.short;
        self.budgeted += other.budgeted;
        self.refused += other.refused;
        self.same += other.same;
        self.read += other.read;
        self.states += other.states;
        self.moves[0] += other.moves[0];
        self.moves[1] += other.moves[1];
        self.broken += other.broken;
    }

    /// What came less often than so many times.
    pub fn gaps(&self, least: u64) -> Vec<String> {
        let kinds = [
            (self.written, "texts"),
            (self.short, "texts that were too long"),
            (self.budgeted, "texts refused with 25"),
            (self.refused, "texts of refused tables"),
            (self.same, "texts of two versions"),
            (self.read, "texts that were read back"),
            (self.states, "states of their networks"),
            (self.moves[0], "moves of one process"),
            (self.moves[1], "moves of two processes"),
            (self.broken, "entries with a broken invariant"),
        ];
        let rare = kinds.into_iter().filter(|(count, _)| *count < least);
        let gap = |(count, kind)| format!("{count} {kind} are fewer than {least}");
        rare.map(gap).collect()
    }
}

impl fmt::Display for Exports {
    fn fmt(&self, out: &mut fmt::Formatter<'_>) -> fmt::Result {
        write!(
            out,
            "{} texts: written {}, too short {}, refused 25: {}, table refused {}; \
             {} equal those of another version, {} read back: {} states, {} moves of one, \
             {} of two, {} broken entries",
            self.all(),
            self.written,
            self.short,
            self.budgeted,
            self.refused,
            self.same,
            self.read,
            self.states,
            self.moves[0],
            self.moves[1],
            self.broken
        )
    }
}
