//! A table that decodes encodes back to the same bytes.

mod common;

use common::corpus_folder;
use std::fs;
use table_text::corpus::{read_answers, Answer};
use table_text::{decode, encode};

/// Answers whether the table decodes; if it does it must come back whole.
fn comes_back(name: &str, bytes: &[u8]) -> bool {
    match decode(bytes) {
        Ok(text) => {
            assert_eq!(encode(&text).as_deref(), Ok(bytes), "{name}:\n{text}");
            true
        }
        Err(_) => false,
    }
}

#[test]
fn stored_tables() {
    let folder = corpus_folder();
    for (name, answer) in read_answers(&folder).unwrap() {
        let bytes = fs::read(folder.join(format!("{name}.bin"))).unwrap();
        let back = comes_back(&name, &bytes);
        assert!(back || answer != Answer::Accepted, "{name} does not decode");
    }
}

/// Marsaglia's 32-bit xorshift, for tables that differ and can be had again.
struct Draws(u32);

impl Draws {
    fn next(&mut self) -> u32 {
        self.0 ^= self.0 << 13;
        self.0 ^= self.0 >> 17;
        self.0 ^= self.0 << 5;
        self.0
    }

    fn below(&mut self, limit: u32) -> u8 {
        u8::try_from(self.next() % limit).unwrap()
    }

    fn fill(&mut self, bytes: &mut Vec<u8>, count: usize) {
        for _ in 0..count {
            bytes.push(self.below(256));
        }
    }
}

fn drawn_edge(draws: &mut Draws, version: u8) -> Vec<u8> {
    let kind = draws.below(3);
    let clock_guards = draws.below(5);
    let data_guards = draws.below(5);
    let items = if kind == 1 { 1 } else { draws.below(9) };
    let item_length = [4, 1, 2][usize::from(kind)];
    let mut bytes = vec![kind];
    draws.fill(&mut bytes, 3);
    bytes.extend([clock_guards, data_guards, items]);
    match version {
        3 if draws.below(2) == 0 => draws.fill(&mut bytes, 2),
        3 => bytes.extend([0, 0]),
        _ => {}
    }
    let guards = 5 * usize::from(clock_guards + data_guards);
    draws.fill(&mut bytes, guards + item_length * usize::from(items));
    bytes
}

fn drawn_component(draws: &mut Draws, version: u8) -> Vec<u8> {
    let locations = draws.below(6);
    let edges = draws.below(9);
    let mut body = vec![locations];
    draws.fill(&mut body, 3);
    body.push(edges);
    draws.fill(&mut body, 3 * usize::from(locations));
    for _ in 0..edges {
        body.extend(drawn_edge(draws, version));
    }
    let mut bytes = u16::try_from(body.len() + 2)
        .unwrap()
        .to_be_bytes()
        .to_vec();
    bytes.extend(body);
    bytes
}

/// A table whose parts fit, with numbers of any size in them.
fn drawn_table(draws: &mut Draws) -> Vec<u8> {
    let version = 1 + draws.below(3);
    let components = draws.below(9);
    let channels = draws.below(256);
    let mut body = vec![components, channels];
    draws.fill(&mut body, 2);
    if version >= 2 {
        draws.fill(&mut body, channels.into());
    }
    for _ in 0..components {
        body.extend(drawn_component(draws, version));
    }
    let mut bytes = vec![version];
    bytes.extend(u16::try_from(body.len() + 3).unwrap().to_be_bytes());
    bytes.extend(body);
    bytes
}

#[test]
fn drawn_tables() {
    let mut draws = Draws(2_463_534_242);
    for number in 0..500 {
        let bytes = drawn_table(&mut draws);
        assert!(comes_back(&format!("drawn {number}"), &bytes), "{bytes:?}");
    }
}

#[test]
fn drawn_tables_with_one_byte_changed() {
    let mut draws = Draws(88_172_645);
    for number in 0..1_500 {
        let mut bytes = drawn_table(&mut draws);
        let place = draws.next() as usize % bytes.len();
        bytes[place] = draws.below(256);
        comes_back(&format!("changed {number}"), &bytes);
        bytes.truncate(place);
        comes_back(&format!("shortened {number}"), &bytes);
    }
}

#[test]
fn what_does_not_decode_says_where() {
    let say = |bytes: &[u8]| decode(bytes).unwrap_err().to_string();
    assert_eq!(say(&[]), "byte 0: the version does not fit");
    let version = "byte 0: only tables of version 1, 2 or 3 are read";
    assert_eq!(say(&[4]), version);
    let band = "byte 8: a channel's band does not fit";
    assert_eq!(say(&[2, 0, 8, 1, 2, 0, 9, 3]), band);
    let length = "byte 0: the stated length is 8, the table has 7 bytes";
    assert_eq!(say(&[1, 0, 8, 1, 0, 0, 9]), length);
    let none = "byte 7: a component's length does not fit";
    assert_eq!(say(&[1, 0, 7, 1, 0, 0, 9]), none);
    let kind = [
        1, 0, 21, 1, 0, 0, 9, 0, 14, 0, 0, 1, 0, 1, 3, 0, 0, 0, 0, 0, 0,
    ];
    assert_eq!(say(&kind), "byte 14: an edge's kind must be 0, 1 or 2");
    let budget = [
        3, 0, 22, 1, 0, 0, 9, 0, 15, 0, 0, 1, 0, 1, 0, 0, 0, 0, 0, 0, 0, 0,
    ];
    assert_eq!(say(&budget), "byte 21: an edge's budget does not fit");
}
