//! The safe call `edge_choice`: the worked example, the vectors, entries that
//! are absent, refusals.

mod common;

use common::*;
use reference::checks::verdict;
use reference::schedule::Passage;
use std::fs;
use std::path::Path;
use timed_network::{edge_choice, EdgeChoice, Entry, TakenEdge, Verdict};

/// What is chosen at the entry of a passage.
fn at(table: &[u8], passage: &Passage) -> EdgeChoice {
    let entry = Entry {
        component: passage.component,
        location: passage.location,
        clocks: passage.clocks,
        values: passage.variables,
    };
    edge_choice(table, &entry).unwrap()
}

/// The answer as the vectors write it: a number for each passage, those of the
/// second implementation's schedule; the edge has to be the passage's.
fn answer(table: &[u8]) -> String {
    let passages = match verdict(table) {
        Ok((_, passages)) => passages,
        Err(refusal) => {
            let expected = refused(refusal.number, refusal.component);
            assert_eq!(timed_network::check(table), expected);
            return expected.to_string();
        }
    };
    let looked = |passage: &Passage| {
        let choice = at(table, passage);
        let taken = TakenEdge {
            edge: passage.edge,
            ready: passage.ready - passage.entry,
            end: passage.end - passage.entry,
        };
        assert_eq!(choice.taken, Some(taken));
        choice.looked.to_string()
    };
    passages.iter().map(looked).collect::<Vec<_>>().join(" ")
}

#[test]
fn all_vectors() {
    let file = Path::new(env!("CARGO_MANIFEST_DIR")).join("../../vectors/edge_choice.tsv");
    let mut count = 0;
    for line in fs::read_to_string(file).unwrap().lines() {
        let fields: Vec<&str> = line.split('\t').collect();
        if let ["looked", table] = fields[1].split(' ').collect::<Vec<_>>()[..] {
            assert_eq!(answer(&unhex(table)), fields[2], "{}", fields[0]);
            count += 1;
        }
    }
    assert_eq!(count, 90);
}

/// An entry of component 1, the hub, with its counter at 7.
fn hub(location: u8, clock: u32) -> Entry {
    Entry {
        component: 1,
        location,
        clocks: [clock, 0, 0, 0],
        values: [7, 0, 0, 0],
    }
}

#[test]
fn the_hub_of_the_worked_example() {
    let asked = |location, clock| edge_choice(&PROBE_AND_HUB, &hub(location, clock)).unwrap();
    let found = |edge, ready, end, looked| EdgeChoice {
        taken: Some(TakenEdge { edge, ready, end }),
        looked,
    };
    assert_eq!(asked(0, 0), found(0, 2, 6, 3), "none is ready at once");
    assert_eq!(asked(0, 1), found(0, 1, 5, 3));
    assert_eq!(asked(0, 2), found(0, 0, 4, 1), "edge 0 is");
    assert_eq!(asked(0, 5), found(0, 0, 1, 1));
    let none = EdgeChoice {
        taken: None,
        looked: 3,
    };
    assert_eq!(asked(0, 6), none, "no window");
    assert_eq!(asked(0, u32::MAX), none);
    assert_eq!(asked(1, 8), found(1, 1, 2, 3));
    assert_eq!(asked(1, 9), found(1, 0, 1, 2), "edge 1 is");
    assert_eq!(asked(2, 9), found(2, 0, 1, 3), "edge 2 is");
    assert_eq!(asked(3, 0), none, "no such location");
}

#[test]
fn an_absent_component_has_no_edges() {
    for component in [2, 8, 255] {
        let entry = Entry {
            component,
            ..Entry::default()
        };
        let (taken, looked) = (None, 0);
        let choice = EdgeChoice { taken, looked };
        assert_eq!(edge_choice(&PROBE_AND_HUB, &entry), Ok(choice));
    }
}

/// 1 to 6 refuse; a table that 8 or 11 refuses is answered.
#[test]
fn checks_1_to_6_alone_are_asked() {
    let refuses = |table: &[u8], number, component| {
        let answer = edge_choice(table, &hub(0, 0));
        assert_eq!(answer, Err(refusal(number, component)));
    };
    refuses(&[], 1, 255);
    refuses(&PROBE_AND_HUB[..102], 2, 255);
    refuses(&with(6, 0), 3, 255);
    refuses(&with(8, 39), 4, 0);
    refuses(&with(47, 17), 5, 1);
    // Byte 29 is the low of the probe's send: 5 leaves it no window.
    let no_window = with(29, 5);
    assert_eq!(timed_network::check(&no_window), refused(8, 0));
    let choice = edge_choice(&no_window, &Entry::default()).unwrap();
    assert_eq!((choice.taken, choice.looked), (None, 2));
    // The hub's low of 3 lets the send and the receive start together.
    let late = with(70, 3);
    assert!(matches!(
        timed_network::check(&late),
        Verdict::Refused { .. }
    ));
    let choice = edge_choice(&late, &hub(0, 0)).unwrap();
    assert_eq!(choice.taken.map(|taken| taken.ready), Some(3));
}
