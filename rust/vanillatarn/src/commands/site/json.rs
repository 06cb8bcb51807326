//! Airtimes as JSON objects, each on a line of its own.

use super::Step;
use crate::json::{object, or_null, string};
use crate::refusals::field;
use std::ffi::OsStr;
use timed_network::{Network, Refused};

/// The object of a table.
pub fn airtime(file: &OsStr, answer: &Result<Network, Refused>) -> String {
    let network = answer.as_ref().ok();
    let fields = [
        ("file", string(&file.to_string_lossy())),
        ("horizon", or_null(network.map(|network| network.horizon))),
        ("airtime", or_null(network.map(|network| network.airtime))),
        ("refused", or_null(answer.as_ref().err().map(field))),
    ];
    format!("{}\n", object(&fields))
}

/// The object of a table that was to be put into a place.
pub fn step(limit: u32, step: &Step) -> String {
    let network = step.network;
    let fields = [
        ("place", step.place.to_string()),
        ("file", string(&step.file.to_string_lossy())),
        ("horizon", or_null(network.map(|network| network.horizon))),
        ("airtime", or_null(network.map(|network| network.airtime))),
        ("limit", limit.to_string()),
        ("in_use", step.in_use.to_string()),
        ("left", step.left.to_string()),
        ("refused", or_null(step.refused.as_ref().map(field))),
    ];
    format!("{}\n", object(&fields))
}

#[cfg(test)]
mod tests {
    use super::*;
    use timed_network::Refusal;

    #[test]
    fn objects() {
        let file = OsStr::new("a\"b");
        let network = Network {
            horizon: 20,
            airtime: 6,
        };
        let refused = Refused {
            refusal: Refusal::Horizon,
            component: None,
        };
        assert_eq!(
            airtime(file, &Ok(network)),
            "{\"file\":\"a\\\"b\",\"horizon\":20,\"airtime\":6,\"refused\":null}\n"
        );
        assert_eq!(
            airtime(file, &Err(refused)),
            "{\"file\":\"a\\\"b\",\"horizon\":null,\"airtime\":null,\
             \"refused\":{\"number\":27,\"component\":null}}\n"
        );
        let told = step(
            10,
            &Step {
                place: 1,
                file,
                network: Some(network),
                horizon: Some(10),
                refused: Some(refused),
                in_use: 3,
                left: 7,
            },
        );
        assert_eq!(
            told,
            "{\"place\":1,\"file\":\"a\\\"b\",\"horizon\":20,\"airtime\":6,\"limit\":10,\
             \"in_use\":3,\"left\":7,\"refused\":{\"number\":27,\"component\":null}}\n"
        );
    }
}
