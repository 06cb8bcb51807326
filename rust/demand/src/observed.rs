//! The observations written, read from their bytes and compared with those on
//! the path.

use crate::path::{Observation, Path};
use crate::OBSERVATION;

/// Where the finish tick stands in the bytes of an observation.
const FINISH_TICK: usize = 32;

/// What stands in the bytes of an observation.
#[derive(Clone, Copy, Debug, PartialEq, Eq)]
pub struct Written {
    /// "the old 32 bytes", which "are held against the network path as before".
    pub observation: Observation,
    /// "the tick at which the node's previous work finished".
    pub previous: u32,
}

/// "32 bytes: component, edge, location, 0, tick (4 bytes), four clocks grown
/// by n (4 each), four variables (2 each); absent ones 0." Then the finish tick.
pub fn read(bytes: &[u8]) -> Result<Vec<Written>, String> {
    let places = bytes.chunks_exact(OBSERVATION);
    if !places.remainder().is_empty() {
        return Err(format!(
            "Finishes.each: {} bytes are not whole observations, with a finish tick each",
            bytes.len()
        ));
    }
    places.map(one).collect()
}

fn one(bytes: &[u8]) -> Result<Written, String> {
    if bytes[3] != 0 {
        return Err(format!("observed: the fourth byte is {}", bytes[3]));
    }
    let observation = Observation {
        component: bytes[0],
        edge: bytes[1],
        location: bytes[2],
        tick: number(&bytes[4..8]),
        clocks: [8, 12, 16, 20].map(|at| number(&bytes[at..at + 4])),
        variables: [24, 26, 28, 30].map(|at| number(&bytes[at..at + 2]) as u16 as i16),
    };
    let previous = number(&bytes[FINISH_TICK..]);
    Ok(Written {
        observation,
        previous,
    })
}

/// A number, its highest byte first.
fn number(bytes: &[u8]) -> u32 {
    bytes
        .iter()
        .fold(0, |sum, byte| sum << 8 | u32::from(*byte))
}

/// "Finished sleep writes an observation"; "They stand in finishing order."
pub fn in_order(written: &[Written], sleeps: &[u8]) -> Result<(), String> {
    let nodes: Vec<u8> = written.iter().map(|o| o.observation.component).collect();
    if nodes == sleeps {
        return Ok(());
    }
    Err(format!(
        "order: observations stand there of the nodes {nodes:?}, sleeps were finished by {sleeps:?}"
    ))
}

/// What one node has to have written.
#[derive(Clone, Copy, Debug, PartialEq, Eq)]
pub struct Owed {
    /// Observations after this tick are not on the path.
    pub until: u32,
    /// All before this tick are due.
    pub due_before: u32,
    /// Whether the last of those that are due may be missing.
    pub may_miss: bool,
}

/// The observations of one node are the first ones on the path. Of those that
/// are due the last may be missing if the node is late, and none otherwise.
pub fn compare(
    written: &[Written],
    path: &Path,
    component: usize,
    owed: Owed,
) -> Result<(), String> {
    let mut on_path = path.observations(component, owed.until);
    let mut count = 0;
    let all = written.iter().map(|one| &one.observation);
    for own in all.filter(|o| usize::from(o.component) == component) {
        count += 1;
        let expected = on_path.next();
        if expected.as_ref() != Some(own) {
            return Err(format!(
                "observed: {own:?} was written, on the path is {expected:?}"
            ));
        }
    }
    let passages = path.own(component).iter();
    let tick = owed.due_before;
    let due = passages.filter(|passage| passage.ready < tick).count();
    if due <= count + usize::from(owed.may_miss) {
        return Ok(());
    }
    Err(format!(
        "complete: node {component} has {count} observations, {due} are due before tick {tick}"
    ))
}
