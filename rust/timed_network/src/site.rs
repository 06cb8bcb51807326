//! Four networks under one airtime limit (document 02, wish 13).

mod exported;

pub use exported::SiteNumbers;

use crate::{Refused, Verdict};

/// The places of a site.
pub const PLACES: u8 = 4;

/// What a site keeps of a network.
#[derive(Clone, Copy, Debug, PartialEq, Eq)]
pub struct Network {
    /// The horizon of its table.
    pub horizon: u16,
    /// The ticks of its send windows in one horizon.
    pub airtime: u32,
}

/// The airtime of a table, with its horizon: the sum of end - ready + 1 over the sends of
/// its schedule that are ready before the horizon, each window whole, also past the
/// horizon. Refused as [`crate::check`] refuses.
///
/// ```
/// use timed_network::{airtime, plan, Slots, MAX_PLAN};
///
/// let [probes, slot, guard, period] = [6, 40, 5, 500];
/// let mut table = [0; MAX_PLAN];
/// let size = plan(Slots { probes, slot, guard, period }, &mut table).size;
/// let network = airtime(&table[..size])?;
/// // Two periods, six windows of 41 ticks in each.
/// assert_eq!((network.horizon, network.airtime), (1000, 2 * 6 * 41));
/// # Ok::<(), timed_network::Refused>(())
/// ```
pub fn airtime(table: &[u8]) -> Result<Network, Refused> {
    let answer = exported::airtime(table);
    Verdict::of(answer.number, answer.component).into_result()?;
    Ok(Network {
        horizon: answer.horizon,
        airtime: answer.airtime,
    })
}

/// A site: up to four networks with one horizon, whose airtimes together are never above
/// its limit. Nothing but its calls writes it: over any sequence of them the airtime in
/// use is the sum over the networks that were put in and not taken out since.
///
/// ```
/// use timed_network::{plan, Refusal, Site, Slots, MAX_PLAN};
///
/// let [probes, slot, guard, period] = [6, 40, 5, 500];
/// let mut table = [0; MAX_PLAN];
/// let size = plan(Slots { probes, slot, guard, period }, &mut table).size;
/// let table = &table[..size];
/// let mut site = Site::new(1000);
/// assert_eq!(site.put(table, 0)?, 492);
/// assert_eq!(site.put(table, 3)?, 984);
/// let refused = site.put(table, 1).unwrap_err();
/// assert_eq!((refused.refusal, site.in_use()), (Refusal::Airtime, 984));
/// assert_eq!(site.take(0)?, 492);
/// assert_eq!(site.network(0), None);
/// # Ok::<(), timed_network::Refused>(())
/// ```
///
/// The struct that the library writes is out of reach, but for a copy of it:
///
/// ```compile_fail
/// let mut site = timed_network::Site::new(1);
/// site.numbers.limit = 2;
/// ```
#[derive(Clone, Debug, PartialEq, Eq)]
pub struct Site {
    numbers: SiteNumbers,
}

impl Site {
    /// An empty site with its limit on the send ticks in each horizon.
    pub fn new(limit: u32) -> Site {
        Site {
            numbers: exported::site(limit),
        }
    }

    /// Puts the network of a table into a place, 0 to 3, and gives the airtime in use
    /// after it.
    ///
    /// Refused as [`crate::check`] refuses the table, then with 26 where the place is
    /// above 3 or filled, then with 27 where a network is present that has another
    /// horizon, then with 28 where the airtime in use with that of the table would be
    /// above the limit; then no place is changed. No call changes another place.
    pub fn put(&mut self, table: &[u8], place: u8) -> Result<u64, Refused> {
        exported::put(&mut self.numbers, table, place);
        self.answer()
    }

    /// Takes the network out of a place, and gives the airtime in use after it. Refused
    /// with 26 where the place is above 3 or empty.
    pub fn take(&mut self, place: u8) -> Result<u64, Refused> {
        exported::take(&mut self.numbers, place);
        self.answer()
    }

    /// What the last call said.
    fn answer(&self) -> Result<u64, Refused> {
        let SiteNumbers {
            number, component, ..
        } = self.numbers;
        Verdict::of(number, component).into_result()?;
        Ok(self.numbers.in_use)
    }

    /// The limit.
    pub fn limit(&self) -> u32 {
        self.numbers.limit
    }

    /// The airtime in use.
    pub fn in_use(&self) -> u64 {
        self.numbers.in_use
    }

    /// What is left of the limit.
    pub fn left(&self) -> u64 {
        u64::from(self.limit()) - self.in_use()
    }

    /// The network in a place; none in an empty one, nor past the last.
    pub fn network(&self, place: u8) -> Option<Network> {
        let place = usize::from(place);
        let horizon = *self.numbers.horizons.get(place)?;
        let airtime = self.numbers.airtimes[place];
        (horizon != 0).then_some(Network { horizon, airtime })
    }

    /// A copy of the site as plain numbers, with what the last call said.
    pub fn numbers(&self) -> SiteNumbers {
        self.numbers
    }
}
