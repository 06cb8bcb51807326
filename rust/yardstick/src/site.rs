//! Airtimes, and four networks under one limit: the sum in use is kept, not made anew.

use crate::table::{Kind, Table};
use crate::{Refusal, Schedule, Yardstick};

/// "places 0 to 3".
const PLACES: usize = 4;

/// A network's horizon and airtime; both 0 in an empty place.
#[derive(Clone, Copy, Debug, Default, PartialEq, Eq)]
pub struct Network {
    /// The horizon.
    pub horizon: u16,
    /// The ticks of its send windows in one horizon.
    pub airtime: u32,
}

impl Yardstick {
    /// The horizon and the airtime of a table.
    pub fn airtime(&mut self, bytes: &[u8]) -> Result<Network, Refusal> {
        self.check(bytes)?;
        Ok(Network {
            horizon: self.table.horizon as u16,
            airtime: airtime(&self.table, &self.schedule),
        })
    }
}

/// "the sum of end − ready + 1 over its sends with ready < H".
fn airtime(table: &Table, schedule: &Schedule) -> u32 {
    let mut sum = 0;
    for passage in schedule.passages() {
        let component = table.component(passage.component.into());
        let sends = component.edge(passage.edge).kind == Kind::Send;
        if sends && passage.ready < table.horizon {
            sum += passage.end - passage.ready + 1;
        }
    }
    sum
}

/// A site of four places.
#[derive(Clone, Copy, Debug, PartialEq, Eq)]
pub struct Site {
    limit: u32,
    in_use: u64,
    places: [Network; PLACES],
}

impl Site {
    /// An empty site.
    pub fn new(limit: u32) -> Site {
        let (in_use, places) = (0, [Network::default(); PLACES]);
        Site {
            limit,
            in_use,
            places,
        }
    }

    /// The limit.
    pub fn limit(&self) -> u32 {
        self.limit
    }

    /// The airtime in use.
    pub fn in_use(&self) -> u64 {
        self.in_use
    }

    /// What the places hold.
    pub fn places(&self) -> [Network; PLACES] {
        self.places
    }

    /// Puts a network into a place: 26, 27, then 28.
    pub fn put(&mut self, network: Network, place: u8) -> Result<(), Refusal> {
        let own = self.places.get(usize::from(place));
        if own.is_none_or(|own| own.horizon != 0) {
            return Err(Refusal::whole(26));
        }
        let other = |own: &Network| own.horizon != 0 && own.horizon != network.horizon;
        if self.places.iter().any(other) {
            return Err(Refusal::whole(27));
        }
        let in_use = self.in_use + u64::from(network.airtime);
        if in_use > u64::from(self.limit) {
            return Err(Refusal::whole(28));
        }
        self.in_use = in_use;
        self.places[usize::from(place) % PLACES] = network;
        Ok(())
    }

    /// Takes the network out of a place, or 26.
    pub fn take(&mut self, place: u8) -> Result<(), Refusal> {
        match self.places.get_mut(usize::from(place)) {
            Some(own) if own.horizon != 0 => {
                self.in_use -= u64::from(own.airtime);
                *own = Network::default();
                Ok(())
            }
            _ => Err(Refusal::whole(26)),
        }
    }
}
