//! Where checks 7 to 9 stop: hand-made cases, and what holds of any refused
//! opening. The vectors have more cases.

mod common;

use common::*;
use reference::calls::{edge_choice, refused_opening};
use reference::edge_choice::Entry;
use reference::opening::{NoCandidate, OpeningFault, RefusedOpening};
use reference::schedule::{schedule, MAX_PASSAGES};
use reference::table::*;

fn opening(table: &Table) -> Option<RefusedOpening> {
    refused_opening(&write_table(table))
}

/// An opening of component 0 at location 0 with all values 0.
fn at(passage: usize, tick: u32, fault: OpeningFault) -> RefusedOpening {
    RefusedOpening {
        passage,
        component: 0,
        tick,
        entry: Entry {
            location: 0,
            clocks: [0; 4],
            variables: [0; 4],
        },
        fault,
    }
}

/// Three components that pass every 1, 2 and 4 ticks open 3 + t + t/2 + t/4 passages
/// up to tick t: 1,018 at 580, 1,022 at 583, and at 584 three more, the last of them
/// by component 2.
#[test]
fn the_1025th_of_three_components() {
    let all = |horizon| table(horizon, vec![steady(1), steady(2), steady(4)]);
    assert_eq!(schedule(&all(584)).unwrap().len(), 1022);
    assert_eq!(opening(&all(584)), None);
    let last = RefusedOpening {
        component: 2,
        ..at(MAX_PASSAGES, 584, OpeningFault::TooMany)
    };
    for horizon in [585, 586, 60_000] {
        assert_eq!(opening(&all(horizon)), Some(last));
    }
}

/// Each edge of a location is one of: leaving it or not, blocked or not, with a
/// window or not; those that leave it without being blocked have none.
#[test]
fn edges_are_counted_by_what_is_wrong() {
    let bound = |low, high| DataBound {
        variable: 0,
        low,
        high,
    };
    let blocked = |mut edge: Edge| {
        edge.data_bounds.push(bound(1, 1));
        edge
    };
    let held = |mut edge: Edge| {
        edge.data_bounds.push(bound(0, 0));
        edge
    };
    let with_low = |source, low| edge(source, 0, 0, low, internal(&[]));
    let edges = vec![
        with_low(1, 0),
        blocked(with_low(0, 0)),
        blocked(with_low(0, 9)),
        blocked(held(with_low(0, 0))),
        held(with_low(0, 4)),
        with_low(0, 5),
        blocked(with_low(1, 0)),
    ];
    let found = opening(&table(9, vec![component(&[4, 4], edges)]));
    let fault = OpeningFault::NoCandidate(NoCandidate {
        leaving: 5,
        blocked: 3,
        windowless: 2,
    });
    assert_eq!(found, Some(at(0, 0, fault)));
}

/// A window's end a tick later or earlier: with the location's bound 4 an edge of low
/// 3 is a candidate, and one of high 1 and low 0.
#[test]
fn a_window_of_one_tick_is_none() {
    let edges = |low, high| {
        let mut only = edge(0, 0, 0, low, internal(&[]));
        only.clock_bounds = [clock_bound(low, high)].into_iter().collect();
        opening(&table(1, vec![component(&[4], vec![only])]))
    };
    let fault = OpeningFault::NoCandidate(NoCandidate {
        leaving: 1,
        blocked: 0,
        windowless: 1,
    });
    for (low, high) in [
        (4, None),
        (5, None),
        (0, Some(0)),
        (3, Some(3)),
        (3, Some(2)),
    ] {
        assert_eq!(edges(low, high), Some(at(0, 0, fault)), "{low} {high:?}");
    }
    for (low, high) in [(3, None), (0, Some(1)), (2, Some(3))] {
        assert_eq!(edges(low, high), None, "{low} {high:?}");
    }
}

/// Updates of an edge and the number of the first that leaves the range, if one does.
type Updates<'a> = (&'a [(Operation, i16)], Option<usize>);

/// From 0 to both ends of the range and one past them, by set and by add.
#[test]
fn the_first_update_that_leaves_the_range() {
    let (set, add) = (Operation::Set, Operation::Add);
    let cases: [Updates; 9] = [
        (&[(add, 32_767)], None),
        (&[(add, -32_768)], None),
        (&[(add, 32_767), (add, 1)], Some(1)),
        (&[(add, -32_768), (add, -1)], Some(1)),
        (&[(set, 32_767), (add, 0), (add, 1), (add, 1)], Some(2)),
        (&[(set, 32_767), (set, -32_768), (set, 32_767)], None),
        (&[(add, 16_384), (add, 16_383), (set, 5), (add, 5)], None),
        (&[(add, 16_384), (add, 16_384), (set, 5), (add, 5)], Some(1)),
        (&[(add, -1), (add, -32_767), (add, 1), (add, -2)], Some(3)),
    ];
    for (updates, first) in cases {
        let only = vec![edge(0, 0, 0, 0, internal(updates))];
        let fault = |update| at(0, 0, OpeningFault::OutOfRange { edge: 0, update });
        let found = opening(&table(1, vec![component(&[4], only)]));
        assert_eq!(found, first.map(fault), "{updates:?}");
    }
}

/// Calls a test with tables that pass checks 1 to 6: those of the vectors, and those
/// with bytes changed at random.
fn for_each_table(rounds: usize, mut test: impl FnMut(&Table)) {
    let mut numbers = Numbers(521288629);
    let own = vectors_of_places().into_iter();
    let checked = vectors().into_iter().filter(|v| v.request[0] == "check");
    for vector in own.chain(checked) {
        let bytes = unhex(&vector.request[1]);
        for round in 0..=rounds {
            let mut bytes = bytes.clone();
            if round > 0 {
                change(&mut bytes, &mut numbers);
            }
            if let Ok(table) = read_table(&bytes) {
                test(&table);
            }
        }
    }
}

/// An opening is told exactly where 7 to 9 refuse, with their number and component.
/// At its entry there is an edge to take with 9, and none with 8, where all edges
/// that leave are blocked or have no window.
#[test]
fn openings_are_those_of_the_refusals() {
    let mut counts = [0; 10];
    for_each_table(40, |table| {
        let bytes = write_table(table);
        let told = refused_opening(&bytes);
        assert_eq!(told.map(|o| o.refusal()), schedule(table).err());
        counts[told.map_or(0, |told| usize::from(told.number()))] += 1;
        let Some(told) = told else {
            return;
        };
        let choice = edge_choice(&bytes, told.component, &told.entry).unwrap();
        let taken = choice.taken.map(|(edge, _)| edge);
        match told.fault {
            OpeningFault::TooMany => assert_eq!(told.passage, MAX_PASSAGES),
            OpeningFault::NoCandidate(edges) => {
                assert_eq!(taken, None);
                assert_eq!(edges.leaving, edges.blocked + edges.windowless);
            }
            OpeningFault::OutOfRange { edge, .. } => assert_eq!(taken, Some(edge)),
        }
    });
    println!("{counts:?}");
    assert!(
        counts[7] > 50 && counts[8] > 500 && counts[9] > 100,
        "{counts:?}"
    );
}

/// The opening is the same at every horizon behind its tick, and at its tick no
/// longer reached.
#[test]
fn an_opening_is_reached_behind_its_tick() {
    let mut count = 0;
    for_each_table(10, |table| {
        let told = refused_opening(&write_table(table));
        let Some(tick) = told.map(|told| told.tick as u16).filter(|tick| *tick > 0) else {
            return;
        };
        let mut nearer = table.clone();
        nearer.horizon = tick + 1;
        assert_eq!(opening(&nearer), told);
        nearer.horizon = tick;
        let passages = schedule(&nearer).map(|passages| passages.len());
        assert!(passages.is_ok_and(|count| count <= told.unwrap().passage));
        count += 1;
    });
    assert!(count > 200, "{count}");
}
