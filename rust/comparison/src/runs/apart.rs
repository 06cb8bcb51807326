//! Runs of nodes that wake apart: both get the same spread and the same offsets;
//! what they say and write is compared, and held to demand 3 in the nodes' own
//! clocks.

use super::tally::ASLEEP;
use super::{alike, broken, claim, Broken, Lent, Ran, Runs};
use crate::readers::{Reader, Readers, TOO_LATE};
use demand::apart::{Apart, Work};
use demand::Demand;
use std::fmt;
use timed_network::RunNumbers;

/// What a run is handed beside the table.
#[derive(Clone, Copy, Debug, PartialEq, Eq)]
pub struct Handed<'a> {
    /// The choices.
    pub choices: &'a [u8],
    /// The bound on the offsets.
    pub spread: u32,
    /// The tick at which each node wakes, as far as it is said.
    pub offsets: &'a [u32],
}

impl Handed<'_> {
    /// Whether all nodes wake at tick 0 and the spread is 0: the run as it was.
    fn is_together(&self) -> bool {
        self.spread == 0 && self.offsets.is_empty()
    }

    fn offset(&self, node: u8) -> u32 {
        self.offsets.get(usize::from(node)).copied().unwrap_or(0)
    }
}

impl Lent {
    /// Lends bytes of this length for a run of nodes that wake apart.
    pub fn apart(reader: &Reader, table: &[u8], handed: &Handed, length: usize) -> Lent {
        let Handed {
            choices,
            spread,
            offsets,
        } = *handed;
        Lent::by(length, |bytes| {
            (reader.run_apart)(table, choices, spread, offsets, bytes)
        })
    }
}

/// What a run on which both agree came to.
pub struct RanApart {
    /// The answer.
    pub answer: RunNumbers,
    /// What it was found to have done; nothing for a refused one.
    pub found: Option<Apart>,
}

/// Runs a table on both sides with bytes of this length lent, and holds the
/// library's run to the demand, if there is one. A run without a spread and
/// offsets is held to the run that takes none.
pub fn compare(
    readers: &Readers,
    table: &[u8],
    demand: Option<&Demand>,
    handed: &Handed,
    length: usize,
) -> Result<RanApart, Broken> {
    let library = Lent::apart(&readers.library, table, handed, length);
    let second = Lent::apart(&readers.second, table, handed, length);
    alike(&library, &second)?;
    if handed.is_together() {
        let together = Lent::to(&readers.library, table, handed.choices, length);
        alike(&library, &together)?;
    }
    let found = match demand {
        Some(demand) if !library.is_refused() => {
            let held = demand.hold_apart(handed.choices, handed.offsets, &claim(&library));
            Some(held.map_err(|problem| broken(&library, &second, Some(problem)))?)
        }
        _ => None,
    };
    let answer = library.answer;
    Ok(RanApart { answer, found })
}

/// What runs of nodes that wake apart came to.
#[derive(Clone, Copy, Debug, Default, PartialEq, Eq)]
pub struct RunsApart {
    /// What they have in common with others.
    pub runs: Runs,
    /// Refused: an offset is above the spread.
    pub above: u64,
    /// Without a spread and offsets.
    pub together: u64,
    /// Messages whose sender woke first, and those whose receiver did.
    pub messages: [u64; 2],
    /// Runs on whose path something had to be filled in.
    pub filled: u64,
}

/// Sender and receiver of a message.
fn pair(work: &Work) -> Option<[u8; 2]> {
    work.message.map(|(receiver, _)| [work.node, receiver])
}

impl RunsApart {
    /// All runs, refused ones included.
    pub fn all(&self) -> u64 {
        self.runs.all() + self.above
    }

    /// Counts a run.
    pub fn count(&mut self, ran: &RanApart, handed: &Handed) {
        if ran.answer.number == TOO_LATE {
            self.above += 1;
            return;
        }
        let facts = ran.found.as_ref().map(|found| found.facts);
        let answer = ran.answer;
        self.runs.count(&Ran { answer, facts });
        let Some(found) = &ran.found else {
            return;
        };
        self.together += u64::from(handed.is_together());
        self.filled += u64::from(!found.filled.is_empty());
        for nodes in found.works.iter().filter_map(pair) {
            let [sender, receiver] = nodes.map(|node| handed.offset(node));
            self.messages[0] += u64::from(sender < receiver);
            self.messages[1] += u64::from(receiver < sender);
        }
    }

    /// Adds what another one counted.
    pub fn add(&mut self, other: &RunsApart) {
        self.runs.add(&other.runs);
        self.above += other.above;
        self.together += other.together;
        for (all, own) in self.messages.iter_mut().zip(other.messages) {
            *all += own;
        }
        self.filled += other.filled;
    }

    /// What should have been seen often enough and was not.
    pub fn gaps(&self, least: u64) -> Vec<String> {
        let ends = (0..).zip(self.runs.ends);
        let ends = ends.map(|(end, count)| (count, format!("runs apart that ended with {end}")));
        let [ahead, behind] = self.messages;
        let others = [
            (self.above, "runs apart refused with 20"),
            (self.runs.short, "runs apart with too few bytes"),
            (self.runs.kept, "runs apart of refused tables"),
            (self.runs.late_at_work, "runs apart late at work"),
            (self.runs.late_for_sleep, "runs apart late for a sleep"),
            (self.runs.reasons[ASLEEP], "choices of nodes yet to wake"),
            (self.together, "runs without a spread and offsets"),
            (ahead, "messages whose sender woke first"),
            (behind, "messages whose receiver woke first"),
            (self.runs.timeouts, "timeouts of nodes that wake apart"),
            (self.filled, "runs with something filled in"),
        ];
        let others = others.map(|(count, what)| (count, what.to_string()));
        let few = ends.chain(others).filter(|(count, _)| *count < least);
        let mut gaps: Vec<String> = few
            .map(|(count, what)| format!("{what}: {count}, fewer than {least}"))
            .collect();
        if self.runs.many == 0 {
            gaps.push("no run apart was refused for too many choices".to_string());
        }
        gaps
    }
}

/// What there is.
impl fmt::Display for RunsApart {
    fn fmt(&self, out: &mut fmt::Formatter<'_>) -> fmt::Result {
        let RunsApart {
            runs,
            above,
            together,
            messages: [ahead, behind],
            filled,
        } = self;
        write!(
            out,
            "apart {runs}; {above} with an offset above the spread, "
        )?;
        write!(
            out,
            "{together} together, {filled} with something filled in, "
        )?;
        write!(out, "{ahead} messages of a sender ahead, {behind} behind")
    }
}

#[cfg(test)]
mod tests {
    use super::*;

    #[test]
    fn what_is_counted_is_told() {
        let apart = RunsApart {
            runs: Runs {
                ends: [1, 0, 0, 2],
                reasons: [0, 0, 0, 0, 0, 2],
                choices: 9,
                ..Runs::default()
            },
            above: 4,
            together: 1,
            messages: [3, 5],
            filled: 1,
        };
        let told = "apart 3 runs: 1 horizon, 2 not allowed (2 yet to wake); 9 choices; \
                    4 with an offset above the spread, 1 together, 1 with something filled in, \
                    3 messages of a sender ahead, 5 behind";
        assert_eq!(apart.to_string(), told);
        assert_eq!(apart.all(), 7);
        let mut twice = apart;
        twice.add(&apart);
        assert_eq!((twice.all(), twice.messages), (14, [6, 10]));
        assert_eq!(apart.gaps(0).len(), 1);
        let gaps = apart.gaps(2);
        assert_eq!(gaps[0], "runs apart that ended with 0: 1, fewer than 2");
        assert_eq!(gaps.len(), 11);
    }
}
