//! The text for UPPAAL: the vectors' refusals, and the worked example byte by byte. All
//! other texts are held against those of the second implementation by the comparison.

mod common;

use common::*;
use yardstick::{Refusal, Yardstick};

/// What stands in the lent bytes behind the call, the bytes past the text included.
fn lent(yardstick: &mut Yardstick, table: &[u8], room: usize) -> (Result<usize, Refusal>, Vec<u8>) {
    let mut text = vec![7; room];
    let answer = yardstick.uppaal(table, &mut text);
    let past = answer.unwrap_or(0);
    assert!(text[past..].iter().all(|byte| *byte == 7));
    text.truncate(past);
    (answer, text)
}

/// The counts of a text as the vectors write them, by its words alone.
fn counted(text: &str) -> String {
    let names = |line: &str| line.split(", ").count();
    let mut words = "0".to_string();
    for line in text.lines() {
        if line.starts_with("chan ") {
            words = names(line).to_string();
        }
    }
    for process in text.split("\nprocess ").skip(1) {
        let start = |word: &str| {
            let mut lines = process.lines().filter(|line| line.starts_with(word));
            lines.next().map_or(0, names)
        };
        let own = process.lines().filter(|line| line.starts_with("  "));
        let steps: Vec<&str> = own.clone().filter(|line| line.contains(" -> ")).collect();
        let count = |word: &str| steps.iter().filter(|line| line.contains(word)).count();
        let (sends, receives) = (count("!;"), count("?;"));
        let alone = steps.len() - sends - receives;
        let (clocks, variables) = (start("clock "), start("int["));
        let locations = own.count() - steps.len();
        words += &format!("|{clocks} {variables} {locations} {alone} {sends} {receives}");
    }
    words
}

#[test]
fn all_vectors() {
    let mut yardstick = Yardstick::new();
    let mut count = 0;
    for line in text("vectors/uppaal.tsv").lines() {
        let fields: Vec<&str> = line.split('\t').collect();
        let words: Vec<&str> = fields[1].split(' ').collect();
        if words[0] != "uppaal" {
            continue;
        }
        let room = words[2].parse().unwrap();
        let (answer, text) = lent(&mut yardstick, &unhex(words[1]), room);
        let given = told(answer.map(|_| counted(std::str::from_utf8(&text).unwrap())));
        assert_eq!(given, fields[2], "{}", fields[0]);
        count += 1;
    }
    assert_eq!(count, 112);
}

/// The room that is just enough, and one byte less.
#[test]
fn short_rooms() {
    let mut yardstick = Yardstick::new();
    let table = bytes("corpus/probe_and_hub.bin");
    let needed = lent(&mut yardstick, &table, 4096).0.unwrap();
    assert_eq!(lent(&mut yardstick, &table, needed).0, Ok(needed));
    for room in 0..needed {
        let (number, component) = (13, 255);
        let refused = Refusal { number, component };
        assert_eq!(lent(&mut yardstick, &table, room).0, Err(refused));
    }
}
