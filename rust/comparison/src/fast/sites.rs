//! The yardstick's airtimes and sites.

use super::{verdict, with};
use crate::sites::Asked;
use timed_network::{Network, SiteNumbers, Verdict};
use yardstick::{Refusal, Site};

pub(super) fn airtime(table: &[u8]) -> Result<Network, Verdict> {
    let network = with(|yardstick| yardstick.airtime(table)).map_err(verdict)?;
    Ok(Network {
        horizon: network.horizon,
        airtime: network.airtime,
    })
}

pub(super) fn site(limit: u32, calls: &[Asked]) -> Vec<SiteNumbers> {
    let mut site = Site::new(limit);
    let mut sites = vec![numbers(&site, Ok(()))];
    for call in calls {
        let answer = match *call {
            Asked::Put(table, place) => {
                let network = with(|yardstick| yardstick.airtime(table));
                network.and_then(|network| site.put(network, place))
            }
            Asked::Take(place) => site.take(place),
        };
        sites.push(numbers(&site, answer));
    }
    sites
}

fn numbers(site: &Site, answer: Result<(), Refusal>) -> SiteNumbers {
    let (number, component) = match answer {
        Ok(()) => (0, 255),
        Err(refusal) => (refusal.number, refusal.component),
    };
    SiteNumbers {
        limit: site.limit(),
        horizons: site.places().map(|network| network.horizon),
        airtimes: site.places().map(|network| network.airtime),
        in_use: site.in_use(),
        number,
        component,
    }
}
