//! What came of pairs.

use super::Answer;
use crate::readers::{NO_QUESTION, TOO_SHORT, UNSORTED};
use std::fmt;
use timed_network::{Verdict, POSITION};

/// What came of lists of pairs.
#[derive(Clone, Copy, Debug, Default, PartialEq, Eq)]
pub struct Located {
    /// Lists that were answered.
    pub written: u64,
    /// Those of them without a pair.
    pub without: u64,
    /// Those of them with a number left over.
    pub left_over: u64,
    /// Too few bytes lent.
    pub short: u64,
    /// A component that there is not, or a tick from the horizon on.
    pub absent: u64,
    /// A tick below that of the pair before it.
    pub unsorted: u64,
    /// The table is refused.
    pub refused: u64,
    /// The pairs answered: before ready, in the window.
    pub pairs: [u64; 2],
    /// Those of them in a passage above 255.
    pub above_255: u64,
}

impl Located {
    /// All lists.
    pub fn all(&self) -> u64 {
        self.written + self.short + self.absent + self.unsorted + self.refused
    }

    /// Counts the answer to a list of so many numbers.
    pub fn count(&mut self, answer: &Answer, numbers: usize) {
        let place = match answer.told.verdict {
            Verdict::Accepted => &mut self.written,
            Verdict::Refused { number, .. } if number == TOO_SHORT => &mut self.short,
            Verdict::Refused { number, .. } if number == NO_QUESTION => &mut self.absent,
            Verdict::Refused { number, .. } if number == UNSORTED => &mut self.unsorted,
            Verdict::Refused { .. } => &mut self.refused,
        };
        *place += 1;
        if answer.told.verdict == Verdict::Accepted {
            self.without += u64::from(numbers < 2);
            self.left_over += u64::from(numbers % 2 == 1);
        }
        for bytes in answer.written.chunks_exact(POSITION) {
            self.pairs[usize::from(bytes[2] != 0)] += 1;
            self.above_255 += u64::from(bytes[0] > 0);
        }
    }

    /// Adds what another class counted.
    pub fn add(&mut self, other: &Located) {
        self.written += other.written;
        self.without += other.without;
        self.left_over += other.left_over;
        self.short += other.short;
        self.absent += other.absent;
        self.unsorted += other.unsorted;
        self.refused += other.refused;
        for (all, own) in self.pairs.iter_mut().zip(other.pairs) {
            *all += own;
        }
        self.above_255 += other.above_255;
    }

    /// What came never.
    pub fn gaps(&self) -> Vec<String> {
        let kinds = [
            (self.without, "no list of no pairs was answered"),
            (self.left_over, "no list had a number left over"),
            (self.short, "no answers to pairs were too long"),
            (self.absent, "no pair was refused with 21"),
            (self.unsorted, "no pair was refused with 24"),
            (self.refused, "no refused table was asked for positions"),
            (self.pairs[0], "no pair was before ready"),
            (self.pairs[1], "no pair was in the window"),
            (self.above_255, "no pair was in a passage above 255"),
        ];
        let never = kinds.into_iter().filter(|(count, _)| *count == 0);
        never.map(|(_, gap)| gap.to_string()).collect()
    }
}

impl fmt::Display for Located {
    fn fmt(&self, out: &mut fmt::Formatter<'_>) -> fmt::Result {
        let [before, within] = self.pairs;
        write!(
            out,
            "{} lists of pairs: written {} ({} without a pair, {} with a number left over), \
             too short {}, refused 21: {}, refused 24: {}, table refused {}; \
             pairs: before ready {before}, in the window {within} ({} above passage 255)",
            self.all(),
            self.written,
            self.without,
            self.left_over,
            self.short,
            self.absent,
            self.unsorted,
            self.refused,
            self.above_255
        )
    }
}
