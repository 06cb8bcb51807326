//! What came of the calls of sites.

use super::Asked;
use crate::readers::{NO_AIRTIME, NO_PLACE, OTHER_HORIZON};
use std::fmt;
use timed_network::{SiteNumbers, PLACES};

/// What was counted of sites.
#[derive(Clone, Copy, Debug, Default, PartialEq, Eq)]
pub struct Sites {
    /// Sequences of calls.
    pub sequences: u64,
    /// Networks that were put in.
    pub put: u64,
    /// Those of them that need no airtime.
    pub silent: u64,
    /// Networks that were taken out.
    pub taken: u64,
    /// A place that there is not.
    pub absent: u64,
    /// A filled place when putting.
    pub filled: u64,
    /// An empty place when taking.
    pub empty: u64,
    /// Another horizon.
    pub horizons: u64,
    /// A sum above the limit.
    pub above: u64,
    /// A table that is refused.
    pub refused: u64,
    /// Calls after which all four places were filled.
    pub full: u64,
    /// Calls after which the airtime in use was the limit, and not 0.
    pub at_limit: u64,
    /// Networks with another horizon than that of the last one taken out, put into the
    /// emptied site.
    pub renewed: u64,
    /// Airtimes of tables on their own.
    pub airtimes: u64,
}

impl Sites {
    /// All calls, and the airtimes.
    pub fn all(&self) -> u64 {
        self.calls() + self.airtimes
    }

    /// The calls of all sequences.
    pub fn calls(&self) -> u64 {
        let places = self.absent + self.filled + self.empty;
        self.put + self.taken + places + self.horizons + self.above + self.refused
    }

    /// Counts a sequence: the site before the first call, and after each.
    pub fn count(&mut self, calls: &[Asked], sites: &[SiteNumbers]) {
        self.sequences += 1;
        let mut last = 0;
        for (call, pair) in calls.iter().zip(sites.windows(2)) {
            let [before, after] = [&pair[0], &pair[1]];
            self.count_call(call, before, after);
            let horizon = horizon(after);
            if before.horizons == [0; 4] && horizon != 0 {
                self.renewed += u64::from(last != 0 && last != horizon);
            }
            if horizon != 0 {
                last = horizon;
            }
        }
    }

    fn count_call(&mut self, call: &Asked, before: &SiteNumbers, after: &SiteNumbers) {
        let place = match *call {
            Asked::Put(_, place) | Asked::Take(place) => place,
        };
        let count = match (after.number, call) {
            (0, Asked::Put(..)) => &mut self.put,
            (0, Asked::Take(_)) => &mut self.taken,
            (NO_PLACE, _) if place >= PLACES => &mut self.absent,
            (NO_PLACE, Asked::Put(..)) => &mut self.filled,
            (NO_PLACE, Asked::Take(_)) => &mut self.empty,
            (OTHER_HORIZON, _) => &mut self.horizons,
            (NO_AIRTIME, _) => &mut self.above,
            _ => &mut self.refused,
        };
        *count += 1;
        if (after.number, after.in_use) == (0, before.in_use) && matches!(call, Asked::Put(..)) {
            self.silent += 1;
        }
        self.full += u64::from(after.horizons.iter().all(|horizon| *horizon != 0));
        self.at_limit += u64::from(after.in_use != 0 && after.in_use == after.limit.into());
    }

    /// Adds what another class counted.
    pub fn add(&mut self, other: &Sites) {
        self.sequences += other.sequences;
        self.put += other.put;
        self.silent += other.silent;
        self.taken += other.taken;
        self.absent += other.absent;
        self.filled += other.filled;
        self.empty += other.empty;
        self.horizons += other.horizons;
        self.above += other.above;
        self.refused += other.refused;
        self.full += other.full;
        self.at_limit += other.at_limit;
        self.renewed += other.renewed;
        self.airtimes += other.airtimes;
    }

    /// What came less often than so many times.
    pub fn gaps(&self, least: u64) -> Vec<String> {
        let kinds = [
            (self.sequences, "sequences of a site"),
            (self.put, "networks put in"),
            (self.silent, "networks without airtime put in"),
            (self.taken, "networks taken out"),
            (self.absent, "calls with a place that there is not"),
            (self.filled, "networks for a filled place"),
            (self.empty, "calls with an empty place to take from"),
            (self.horizons, "networks refused with 27"),
            (self.above, "networks refused with 28"),
            (self.refused, "refused tables for a site"),
            (self.full, "sites with four networks"),
            (self.at_limit, "sites at their limit"),
            (self.renewed, "emptied sites with another horizon"),
            (self.airtimes, "airtimes"),
        ];
        let rare = kinds.into_iter().filter(|(count, _)| *count < least);
        let gap = |(count, kind)| format!("{count} {kind} are fewer than {least}");
        rare.map(gap).collect()
    }
}

/// The horizon of the networks present, 0 for none.
fn horizon(site: &SiteNumbers) -> u16 {
    site.horizons.into_iter().max().unwrap_or(0)
}

impl fmt::Display for Sites {
    fn fmt(&self, out: &mut fmt::Formatter<'_>) -> fmt::Result {
        write!(
            out,
            "{} airtimes; {} calls of {} sites: put in {} ({} without airtime), taken out {}, \
             refused 26: {} no such place, {} filled, {} empty, refused 27: {}, \
             refused 28: {}, table refused {}; {} times full, {} at the limit, \
             {} emptied for another horizon",
            self.airtimes,
            self.calls(),
            self.sequences,
            self.put,
            self.silent,
            self.taken,
            self.absent,
            self.filled,
            self.empty,
            self.horizons,
            self.above,
            self.refused,
            self.full,
            self.at_limit,
            self.renewed
        )
    }
}
