//! What several tests use.
#![allow(dead_code)]

use std::fs;
use timed_network::{Refused, Verdict};

/// "Probe and hub": 103 bytes.
pub const PROBE_AND_HUB: [u8; 103] = [
    1, 0, 103, 2, 1, 0, 20, // header
    0, 38, 2, 0, 1, 0, 2, // component 0, the probe
    0, 0, 5, // location 0
    0, 0, 10, // location 1
    1, 0, 1, 0, 1, 0, 1, // edge 0, a send
    0, 0, 3, 255, 255, // its clock bound
    0,   // its channel
    0, 1, 0, 1, 1, 0, 0, // edge 1, internal
    0, 0, 8, 255, 255, // its clock bound
    0, 58, 3, 0, 1, 1, 3, // component 1, the hub
    0, 0, 6, // location 0
    0, 0, 10, // location 1
    0, 0, 10, // location 2
    2, 0, 2, 0, 1, 0, 1, // edge 0, a receive
    0, 0, 2, 255, 255, // its clock bound
    0, 1, // its pair
    0, 1, 0, 1, 1, 0, 1, // edge 1, internal
    0, 0, 9, 255, 255, // its clock bound
    0, 1, 0, 1, // its update
    0, 2, 0, 1, 1, 0, 0, // edge 2, internal
    0, 0, 9, 255, 255, // its clock bound
];

pub fn refused(number: u8, component: u8) -> Verdict {
    Verdict::Refused { number, component }
}

/// The same as the error of a result.
pub fn refusal(number: u8, component: u8) -> Refused {
    refused(number, component).into_result().unwrap_err()
}

/// The worked example with one byte changed.
pub fn with(at: usize, byte: u8) -> Vec<u8> {
    let mut table = PROBE_AND_HUB.to_vec();
    table[at] = byte;
    table
}

/// A file of the repository.
pub fn file(name: &str) -> Vec<u8> {
    let root = concat!(env!("CARGO_MANIFEST_DIR"), "/../../");
    fs::read(root.to_owned() + name).unwrap()
}

/// A text of the repository.
pub fn text(name: &str) -> String {
    String::from_utf8(file(name)).unwrap()
}

/// The bytes of a hexadecimal text, `-` for none.
pub fn unhex(text: &str) -> Vec<u8> {
    let byte = |at: usize| u8::from_str_radix(&text[at..at + 2], 16).unwrap();
    let places = (0..text.len()).step_by(2).filter(|_| text != "-");
    places.map(byte).collect()
}
