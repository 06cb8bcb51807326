//! Document 01, "Probe and hub": 103 bytes.

mod common;

use common::corpus_folder;
use std::fs;
use table_text::{decode, encode};

#[rustfmt::skip]
const PROBE_AND_HUB: [u8; 103] = [
    // version 1, length 103, 2 components, 1 channel, H = 20
    1, 0, 103, 2, 1, 0, 20,
    // component 0: 38 bytes, 2 locations, initial 0, 1 clock, 0 variables, 2 edges
    0, 38, 2, 0, 1, 0, 2,
    0, 0, 5,
    0, 0, 10,
    1, 0, 1, 0, 1, 0, 1,   0, 0, 3, 255, 255,   0,
    0, 1, 0, 1, 1, 0, 0,   0, 0, 8, 255, 255,
    // component 1: 58 bytes, 3 locations, initial 0, 1 clock, 1 variable, 3 edges
    0, 58, 3, 0, 1, 1, 3,
    0, 0, 6,
    0, 0, 10,
    0, 0, 10,
    2, 0, 2, 0, 1, 0, 1,   0, 0, 2, 255, 255,   0, 1,
    0, 1, 0, 1, 1, 0, 1,   0, 0, 9, 255, 255,   0, 1, 0, 1,
    0, 2, 0, 1, 1, 0, 0,   0, 0, 9, 255, 255,
];

const DECODED: &str = "\
horizon 20
channels 1
component  # 0
  clocks 1
  variables 0
  initial 0
  location x0 <= 5  # 0
  location x0 <= 10  # 1
  send 0 -> 1 on 0  # 0
    when x0 from 3
  internal 1 -> 0  # 1
    when x0 from 8
    reset x0
component  # 1
  clocks 1
  variables 1
  initial 0
  location x0 <= 6  # 0
  location x0 <= 10  # 1
  location x0 <= 10  # 2
  receive 0 -> 2  # 0
    when x0 from 2
    on 0 -> 1
  internal 1 -> 0  # 1
    when x0 from 9
    reset x0
    add v0 1
  internal 2 -> 0  # 2
    when x0 from 9
    reset x0
";

#[test]
fn the_stored_source_gives_the_103_bytes() {
    let text = fs::read_to_string(corpus_folder().join("probe_and_hub.txt")).unwrap();
    assert_eq!(encode(&text).unwrap(), PROBE_AND_HUB);
}

#[test]
fn the_103_bytes_give_the_text_back() {
    assert_eq!(decode(&PROBE_AND_HUB).unwrap(), DECODED);
    assert_eq!(encode(DECODED).unwrap(), PROBE_AND_HUB);
}

#[test]
fn the_documentation_shows_the_same_table() {
    let page = corpus_folder().join("../docs/TABLE-TEXT.md");
    let page = fs::read_to_string(page).unwrap();
    let (_, after) = page.split_once("## Worked example").unwrap();
    let source = after.split("```").nth(1).unwrap();
    assert_eq!(encode(source).unwrap(), PROBE_AND_HUB);
}
