//! The safe calls `uppaal` and `uppaal_into`: the vectors, the worked example, the
//! largest text, lent bytes of every length, refusals.

mod common;

use common::*;
use reference::calls;
use reference::table::{
    write_table, Action, ClockBound, Component, Edge, Location, Pair, Table, MAX_CHANNELS,
};
use timed_network::{uppaal, uppaal_into, Call, Verdict, UPPAAL_ENOUGH};

/// What the second implementation writes.
fn expected(table: &[u8], lent: usize) -> Result<Vec<u8>, Verdict> {
    let mut text = vec![7; lent];
    match calls::uppaal(table, &mut text) {
        Ok(size) => Ok(text[..size].to_vec()),
        Err(refusal) => Err(refused(refusal.number, refusal.component)),
    }
}

/// What the library writes; what stands past it must stay.
fn written(table: &[u8], lent: usize) -> Result<Vec<u8>, Verdict> {
    let mut text = vec![7; lent];
    let Call { verdict, size } = uppaal_into(table, &mut text);
    assert!(text[size..].iter().all(|byte| *byte == 7));
    text.truncate(size);
    match verdict {
        Verdict::Accepted => Ok(text),
        refused => {
            assert_eq!(size, 0);
            Err(refused)
        }
    }
}

#[test]
fn all_vectors() {
    let mut count = 0;
    for line in text("vectors/uppaal.tsv").lines() {
        let fields: Vec<&str> = line.split('\t').collect();
        let words: Vec<&str> = fields[1].split(' ').collect();
        if words[0] != "uppaal" {
            continue;
        }
        let (table, lent) = (unhex(words[1]), words[2].parse().unwrap());
        let given = written(&table, lent);
        match &given {
            Ok(text) => assert_eq!(uppaal(&table).unwrap().as_bytes(), text),
            Err(refused) => assert_eq!(refused.to_string(), fields[2], "{}", fields[0]),
        }
        assert_eq!(given, expected(&table, lent), "{}", fields[0]);
        count += 1;
    }
    assert_eq!(count, 112);
}

#[test]
fn every_room_up_to_the_text() {
    let needed = expected(&PROBE_AND_HUB, UPPAAL_ENOUGH).unwrap().len();
    assert_eq!(needed, 932);
    for lent in (0..needed + 3).rev() {
        let answer = written(&PROBE_AND_HUB, lent);
        assert_eq!(answer, expected(&PROBE_AND_HUB, lent));
        assert_eq!(answer.is_ok(), lent >= needed);
    }
}

/// As many receive edges as a table of 8,192 bytes has, each with eight pairs, four
/// highs and the longest numbers: no longer text was found.
#[test]
fn the_largest_text_fits() {
    let longest = 60_000;
    let bound = ClockBound {
        clock: 0,
        low: longest,
        high: Some(longest),
    };
    let edge = Edge {
        source: 15,
        destination: 15,
        mask: 15,
        clock_bounds: [bound; 4].into_iter().collect(),
        action: Action::Receive((8..16).map(pair).collect()),
        ..Edge::default()
    };
    let (clock, bound) = (0, longest);
    let own = |edges| Component {
        initial: 15,
        clocks: 4,
        variables: 4,
        locations: vec![Location { clock, bound }; 16],
        edges: vec![edge; edges],
    };
    let table = Table {
        version: 1,
        bands: Vec::new(),
        channels: MAX_CHANNELS,
        horizon: longest,
        components: [22, 22, 22, 22, 22, 22, 22, 22].map(own).to_vec(),
    };
    let length = write_table(&table).len();
    assert!(length <= 8192, "{length} bytes");
    let text = reference::uppaal::text(&table);
    assert!(
        text.len() < UPPAAL_ENOUGH && text.len() > 1_500_000,
        "{}",
        text.len()
    );
}

fn pair(channel: u8) -> Pair {
    Pair {
        channel,
        location: 15,
    }
}

/// The table's own refusal, then 25, then 13.
#[test]
fn the_order_of_the_refusals() {
    let budgeted = file("corpus/accepted_budgets_of_probe_and_hub.bin");
    let late = with(70, 3);
    for lent in [0, 1, UPPAAL_ENOUGH] {
        assert_eq!(written(&budgeted, lent), Err(refused(25, 255)));
        assert_eq!(written(&late, lent), Err(refused(16, 0)));
        assert_eq!(written(&[], lent), Err(refused(1, 255)));
    }
    assert_eq!(written(&PROBE_AND_HUB, 0), Err(refused(13, 255)));
    assert_eq!(uppaal(&budgeted), Err(refusal(25, 255)));
    assert_eq!(uppaal(&late), Err(refusal(16, 0)));
}
