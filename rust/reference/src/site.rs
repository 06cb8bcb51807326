//! Four networks under one airtime limit: document 02's wish 13.
//!
//! A site is kept as the list of what was carried out, from its start; what stands in a
//! place is told from it each time anew.

use crate::checks::verdict;
use crate::schedule::Passage;
use crate::table::{Action, Refusal, Table};

/// "Networks are put into and taken out of places 0 to 3".
pub const PLACES: u8 = 4;

/// What a site knows of a network.
#[derive(Clone, Copy, Debug, PartialEq, Eq)]
pub struct Network {
    /// "all present share one H".
    pub horizon: u16,
    /// "A network's airtime".
    pub airtime: u32,
}

/// The airtime of a table that is "accepted at G = 0", with its horizon.
pub fn network(table: &[u8]) -> Result<Network, Refusal> {
    let (table, passages) = verdict(table)?;
    Ok(Network {
        horizon: table.horizon,
        airtime: airtime(&table, &passages),
    })
}

/// "A network's airtime is the sum of end − ready + 1 over its sends with ready < H."
pub fn airtime(table: &Table, passages: &[Passage]) -> u32 {
    let is_counted = |passage: &&Passage| {
        let sends = matches!(passage.edge_in(table).action, Action::Send(_));
        sends && passage.ready < u32::from(table.horizon)
    };
    let ticks = |passage: &Passage| passage.end - passage.ready + 1;
    passages.iter().filter(is_counted).map(ticks).sum()
}

/// What a call carried out.
#[derive(Clone, Copy, Debug, PartialEq, Eq)]
enum Done {
    Put(u8, Network),
    Taken(u8),
}

/// "A site runs up to four networks accepted at G = 0 under one four-byte limit on send
/// ticks per horizon."
#[derive(Clone, Debug, PartialEq, Eq)]
pub struct Site {
    limit: u32,
    done: Vec<Done>,
}

impl Site {
    /// "It starts empty with its limit".
    pub fn new(limit: u32) -> Site {
        Site {
            limit,
            done: Vec::new(),
        }
    }

    /// Its limit.
    pub fn limit(&self) -> u32 {
        self.limit
    }

    /// The network in a place, if one was "put in and not taken out since".
    pub fn network(&self, place: u8) -> Option<Network> {
        let of_place = |done: &Done| match *done {
            Done::Put(at, network) => (at == place).then_some(Some(network)),
            Done::Taken(at) => (at == place).then_some(None),
        };
        self.done.iter().rev().find_map(of_place).flatten()
    }

    /// The networks present.
    fn present(&self) -> impl Iterator<Item = Network> + '_ {
        (0..PLACES).filter_map(|place| self.network(place))
    }

    /// "the airtime in use [...] is the sum over those put in and not taken out since".
    pub fn in_use(&self) -> u64 {
        let airtimes = self.present().map(|network| u64::from(network.airtime));
        airtimes.sum()
    }

    /// Puts the network of a table into a place. "After the table's checks, a wrong
    /// place, or one filled when putting [...], is refused with 26; a different H with
    /// 27; then a sum above the limit with 28, and only then."
    pub fn put(&mut self, table: &[u8], place: u8) -> Result<(), Refusal> {
        let network = network(table)?;
        if place >= PLACES || self.network(place).is_some() {
            return Err(Refusal::whole(26));
        }
        if self.present().any(|other| other.horizon != network.horizon) {
            return Err(Refusal::whole(27));
        }
        if self.in_use() + u64::from(network.airtime) > u64::from(self.limit) {
            return Err(Refusal::whole(28));
        }
        self.done.push(Done::Put(place, network));
        Ok(())
    }

    /// Takes the network out of a place: "a wrong place, or one [...] empty when taking,
    /// is refused with 26".
    pub fn take(&mut self, place: u8) -> Result<(), Refusal> {
        if place >= PLACES || self.network(place).is_none() {
            return Err(Refusal::whole(26));
        }
        self.done.push(Done::Taken(place));
        Ok(())
    }
}
