//! Airtimes and sites of a class.

use super::Trial;
use crate::difference::{Outcome, Stop};
use crate::lists::Unlike;
use crate::requests::Sited;
use crate::sites::{self, Asked};
use timed_network::{Network, SiteNumbers, Verdict};

impl Trial<'_> {
    /// The airtime of a table on both sides.
    pub(super) fn airtime(&mut self, input: &[u8]) -> Outcome {
        self.aired(input).map(|_| ())
    }

    fn aired(&mut self, input: &[u8]) -> Result<String, Stop> {
        let library = (self.readers.library.airtime)(input);
        let second = (self.readers.second.airtime)(input);
        if library == second {
            self.tally.sites.airtimes += 1;
            return Ok(told(library));
        }
        let unlike = Unlike {
            library: format!("{library:?}"),
            second: format!("{second:?}"),
        };
        Err(self.differs(input, "airtime".to_string(), unlike, None))
    }

    /// Calls of a site on both sides, which have to be the same after each.
    pub fn share(&mut self, limit: u32, calls: &[Asked]) -> Outcome {
        self.shared(limit, calls).map(|_| ())
    }

    fn shared(&mut self, limit: u32, calls: &[Asked]) -> Result<Vec<SiteNumbers>, Stop> {
        match sites::compare(self.readers, limit, calls) {
            Ok(sites) => {
                self.tally.sites.count(calls, &sites);
                Ok(sites)
            }
            Err(parted) => {
                let made = &calls[..parted.calls];
                let call = format!("a site with the limit {limit}: {}", told_calls(made));
                Err(self.differs(last_table(made), call, parted.unlike, None))
            }
        }
    }

    /// Both have to answer as it is stored.
    pub fn expect_site(&mut self, request: &Sited) -> Outcome {
        match request {
            Sited::Airtime { table, answer } => {
                let said = self.aired(table)?;
                self.demand(table, "airtime", said, answer.clone())
            }
            Sited::Calls {
                limit,
                calls,
                answers,
            } => {
                let calls = crate::requests::calls(calls);
                let sites = self.shared(*limit, &calls)?;
                let said: Vec<String> = sites[1..].iter().map(answered).collect();
                let call = format!("a site with the limit {limit}: {}", told_calls(&calls));
                let table = last_table(&calls);
                self.demand(table, &call, said.join("|"), answers.join("|"))
            }
        }
    }
}

/// As the vectors write an airtime.
fn told(answer: Result<Network, Verdict>) -> String {
    match answer {
        Ok(network) => network.airtime.to_string(),
        Err(verdict) => verdict.to_string(),
    }
}

/// As the vectors write what a call of a site answers.
fn answered(site: &SiteNumbers) -> String {
    match site.number {
        0 => site.in_use.to_string(),
        number => format!("refused {number} {}", site.component),
    }
}

/// The calls in words; the tables by their lengths.
fn told_calls(calls: &[Asked]) -> String {
    let word = |call: &Asked| match call {
        Asked::Put(table, place) => format!("put {} bytes into {place}", table.len()),
        Asked::Take(place) => format!("take out of {place}"),
    };
    let words: Vec<String> = calls.iter().map(word).collect();
    words.join(", ")
}

/// The table that was put in last.
fn last_table<'a>(calls: &[Asked<'a>]) -> &'a [u8] {
    let table = |call: &Asked<'a>| match *call {
        Asked::Put(table, _) => Some(table),
        Asked::Take(_) => None,
    };
    calls.iter().rev().find_map(table).unwrap_or_default()
}
