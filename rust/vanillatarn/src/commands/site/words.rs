//! Airtimes in words.

use super::Step;
use crate::refusals;
use crate::shown::{pasted, shown};
use std::os::unix::ffi::OsStrExt;
use timed_network::{Network, Refusal, Refused};

/// The airtime of a table, and its share of the horizon; more than all of it where windows
/// reach past the horizon.
pub fn airtime(network: &Network) -> String {
    let Network { horizon, airtime } = network;
    let share = f64::from(*airtime) * 100.0 / f64::from(*horizon);
    format!("airtime {airtime}\nhorizon {horizon}\nshare {share:.1} %\n")
}

/// What came of each table, and then what is in use.
pub fn site(limit: u32, steps: &[Step]) -> String {
    let mut text: String = steps.iter().map(step).collect();
    let (in_use, left) = steps
        .last()
        .map_or((0, u64::from(limit)), |step| (step.in_use, step.left));
    text.push_str(&format!("in use {in_use} of {limit}, left {left}\n"));
    text
}

fn step(step: &Step) -> String {
    let (place, file) = (step.place, shown(step.file.as_bytes()));
    match (&step.refused, &step.network) {
        (None, network) => {
            let airtime = network.map_or(0, |network| network.airtime);
            let (in_use, left) = (step.in_use, step.left);
            format!("place {place}: {file}: airtime {airtime}, in use {in_use}, left {left}\n")
        }
        (Some(refused), _) => {
            let words = refusals::words(refused);
            format!("place {place}: {file}: {words}{}", remedy(refused, step))
        }
    }
}

/// What the numbers are, for 27 and 28.
fn remedy(refused: &Refused, step: &Step) -> String {
    let Some(Network { horizon, airtime }) = step.network else {
        return format!("more about it: vanillatarn verdict {}\n", pasted(step.file));
    };
    match refused.refusal {
        Refusal::Horizon => {
            let present = step.horizon.unwrap_or(0);
            format!("its horizon is {horizon}, that of the networks present {present}\n")
        }
        Refusal::Airtime => format!("its airtime is {airtime}, left {}\n", step.left),
        _ => String::new(),
    }
}

#[cfg(test)]
mod tests {
    use super::*;
    use std::ffi::OsStr;

    fn refused(refusal: Refusal, component: Option<u8>) -> Option<Refused> {
        Some(Refused { refusal, component })
    }

    fn of(horizon: u16, airtime: u32) -> Option<Network> {
        Some(Network { horizon, airtime })
    }

    #[test]
    fn an_airtime_and_its_share() {
        let told = airtime(&of(20, 6).unwrap());
        assert_eq!(told, "airtime 6\nhorizon 20\nshare 30.0 %\n");
        let told = airtime(&of(6, 9).unwrap());
        assert_eq!(told, "airtime 9\nhorizon 6\nshare 150.0 %\n");
    }

    #[test]
    fn a_site_in_words() {
        let file = OsStr::new("a.bin");
        let good = Step {
            place: 0,
            file,
            network: of(20, 6),
            horizon: None,
            refused: None,
            in_use: 6,
            left: 4,
        };
        let step = |place, network, refused| Step {
            place,
            network,
            horizon: Some(20),
            refused,
            ..good
        };
        let steps = [
            step(1, of(10, 3), refused(Refusal::Horizon, None)),
            step(2, of(20, 6), refused(Refusal::Airtime, None)),
            step(3, None, refused(Refusal::ListenerLate, Some(0))),
            step(4, of(20, 0), refused(Refusal::SitePlace, None)),
        ];
        let told = site(10, &[&[good], &steps[..]].concat());
        let expected = "place 0: a.bin: airtime 6, in use 6, left 4\n\
            place 1: a.bin: refused 27 255\n\
            The answer is no: Is the horizon that of the networks present?\n\
            its horizon is 10, that of the networks present 20\n\
            place 2: a.bin: refused 28 255\n\
            The answer is no: Is the airtime in use with this network at most the limit?\n\
            its airtime is 6, left 4\n\
            place 3: a.bin: refused 16 0\n\
            The answer is no: Does the one receive window that meets the send start earlier than it?\n\
            Component 0 is concerned.\n\
            more about it: vanillatarn verdict a.bin\n\
            place 4: a.bin: refused 26 255\n\
            The answer is no: Is it a place 0 to 3, empty when putting, filled when taking?\n\
            in use 6 of 10, left 4\n";
        assert_eq!(told, expected);
        assert_eq!(site(7, &[]), "in use 0 of 7, left 7\n");
    }
}
