//! Airtimes and sites of the library and of the second implementation.

use crate::readers::refused;
use crate::sites::Asked;
use reference::site;
use reference::table::Refusal;
use timed_network::{Network, Site, SiteNumbers, Verdict};

/// The library's airtime.
pub(super) fn library_airtime(table: &[u8]) -> Result<Network, Verdict> {
    timed_network::airtime(table).map_err(Verdict::from)
}

/// The library's site, empty and after each call.
pub(super) fn library_site(limit: u32, calls: &[Asked]) -> Vec<SiteNumbers> {
    let mut site = Site::new(limit);
    let mut sites = vec![site.numbers()];
    for call in calls {
        match *call {
            Asked::Put(table, place) => site.put(table, place).ok(),
            Asked::Take(place) => site.take(place).ok(),
        };
        sites.push(site.numbers());
    }
    sites
}

/// The second implementation's airtime.
pub fn second_airtime(table: &[u8]) -> Result<Network, Verdict> {
    let network = site::network(table);
    let network = network.map_err(|refusal| refused(refusal.number, refusal.component))?;
    Ok(Network {
        horizon: network.horizon,
        airtime: network.airtime,
    })
}

/// The second implementation's site, empty and after each call.
pub fn second_site(limit: u32, calls: &[Asked]) -> Vec<SiteNumbers> {
    let mut site = site::Site::new(limit);
    let mut sites = vec![numbers(&site, Ok(()))];
    for call in calls {
        let answer = match *call {
            Asked::Put(table, place) => site.put(table, place),
            Asked::Take(place) => site.take(place),
        };
        sites.push(numbers(&site, answer));
    }
    sites
}

/// A site as numbers, with what was answered.
fn numbers(site: &site::Site, answer: Result<(), Refusal>) -> SiteNumbers {
    let held = [0, 1, 2, 3].map(|place| site.network(place));
    let (number, component) = match answer {
        Ok(()) => (0, 255),
        Err(refusal) => (refusal.number, refusal.component),
    };
    SiteNumbers {
        limit: site.limit(),
        horizons: held.map(|network| network.map_or(0, |network| network.horizon)),
        airtimes: held.map(|network| network.map_or(0, |network| network.airtime)),
        in_use: site.in_use(),
        number,
        component,
    }
}
