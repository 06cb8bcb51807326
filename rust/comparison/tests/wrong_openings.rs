//! Refused openings that are wrong in one point are found out.

mod finding;

use comparison::readers::{second_opening, LocatesOpening, OpeningNumbers, Reader};
use finding::finder;
use reference::schedule::window;
use reference::table::{read_table, Action, Component, DataBound, Edge, Operation};
use std::cell::Cell;

/// The classes that are made for openings.
fn of_openings(class: &str) -> bool {
    class.starts_with("openings: ")
}

/// The class of stored requests.
fn stored(class: &str) -> bool {
    class == "programs, parts and runs of the vectors"
}

/// Whether a class finds an opening that is wrong.
fn finds(classes: fn(&str) -> bool, refused_opening: LocatesOpening) -> bool {
    let second = Reader::second();
    let library = Reader {
        refused_opening,
        ..second
    };
    finder(classes, library, second).is_some()
}

thread_local! {
    /// Which number is wrong.
    static WRONG: Cell<usize> = const { Cell::new(0) };
}

/// One of the numbers is one too much.
fn one_more(table: &[u8]) -> Option<OpeningNumbers> {
    let mut opening = second_opening(table)?;
    opening[WRONG.get()] += 1;
    Some(opening)
}

#[test]
fn each_number_is_compared() {
    for at in 0..18 {
        WRONG.set(at);
        assert!(finds(of_openings, one_more), "{at}");
        assert!(finds(stored, one_more), "{at}");
    }
    assert!(!finds(of_openings, second_opening));
    assert!(!finds(stored, second_opening));
}

/// The opening with three counts that are made of each edge that leaves the location.
fn recounted(
    table: &[u8],
    count: fn(&Component, &Edge, &OpeningNumbers) -> [i64; 3],
) -> Option<OpeningNumbers> {
    let mut opening = second_opening(table)?;
    if opening[0] == 8 {
        let table = read_table(table).ok()?;
        let component = &table.components[opening[1] as usize];
        let leaving = component
            .edges
            .iter()
            .filter(|edge| i64::from(edge.source) == opening[4]);
        let counts = leaving.map(|edge| count(component, edge, &opening));
        let sum = |[a, b, c]: [i64; 3], [x, y, z]: [i64; 3]| [a + x, b + y, c + z];
        let counts = counts.fold([0; 3], sum);
        opening[13..16].copy_from_slice(&counts);
    }
    Some(opening)
}

/// Whether a data bound of an edge fails, and its window, if it has a tick at all.
fn looked_at(component: &Component, edge: &Edge, opening: &OpeningNumbers) -> (bool, Option<u32>) {
    let values = [9, 10, 11, 12].map(|at| opening[at] as i16);
    let clocks = [5, 6, 7, 8].map(|at| opening[at] as u32);
    let location = &component.locations[opening[4] as usize];
    let length = window(location, edge, &clocks).map(|window| window.end - window.ready);
    (!edge.data_bounds_hold(&values), length)
}

/// An edge without a window counts as that though a data bound fails.
fn window_before_data(table: &[u8]) -> Option<OpeningNumbers> {
    recounted(table, |component, edge, opening| {
        match looked_at(component, edge, opening) {
            (_, None | Some(0)) => [1, 0, 1],
            _ => [1, 1, 0],
        }
    })
}

/// An edge may count as both.
fn both(table: &[u8]) -> Option<OpeningNumbers> {
    recounted(table, |component, edge, opening| {
        let (blocked, length) = looked_at(component, edge, opening);
        [
            1,
            blocked.into(),
            length.is_none_or(|length| length == 0).into(),
        ]
    })
}

/// A window of one tick counts as one.
fn windows_of_one_tick(table: &[u8]) -> Option<OpeningNumbers> {
    recounted(table, |component, edge, opening| {
        match looked_at(component, edge, opening) {
            (true, _) => [1, 1, 0],
            (false, None) => [1, 0, 1],
            (false, Some(_)) => [1, 0, 0],
        }
    })
}

/// Data bounds that fail are counted, not edges.
fn bounds_for_edges(table: &[u8]) -> Option<OpeningNumbers> {
    recounted(table, |component, edge, opening| {
        let (blocked, _) = looked_at(component, edge, opening);
        let fails =
            |bound: &&DataBound| !bound.holds(opening[9 + usize::from(bound.variable)] as i16);
        let failing = edge.data_bounds.iter().filter(fails).count() as i64;
        [1, failing, (!blocked).into()]
    })
}

/// All edges of the component for those that leave the location.
fn all_edges(table: &[u8]) -> Option<OpeningNumbers> {
    let mut opening = second_opening(table)?;
    if opening[0] == 8 {
        let table = read_table(table).ok()?;
        opening[13] = table.components[opening[1] as usize].edges.len() as i64;
    }
    Some(opening)
}

/// The last update for the first that leaves the range.
fn last_update(table: &[u8]) -> Option<OpeningNumbers> {
    with_updates(table, |edge, _| match &edge.action {
        Action::Internal(updates) => updates.len() as i64 - 1,
        _ => 0,
    })
}

/// The first update of a variable that adds, whether it leaves the range or not.
fn first_add(table: &[u8]) -> Option<OpeningNumbers> {
    with_updates(table, |edge, told| match &edge.action {
        Action::Internal(updates) => {
            let adds = updates
                .iter()
                .position(|update| update.operation == Operation::Add);
            adds.map_or(told, |at| at as i64)
        }
        _ => told,
    })
}

/// The opening with another update, of the edge taken and the one told.
fn with_updates(table: &[u8], update: fn(&Edge, i64) -> i64) -> Option<OpeningNumbers> {
    let mut opening = second_opening(table)?;
    if opening[0] == 9 {
        let table = read_table(table).ok()?;
        let edge = &table.components[opening[1] as usize].edges[opening[16] as usize];
        opening[17] = update(edge, opening[17]);
    }
    Some(opening)
}

/// Clocks that the component does not have go on with the others.
fn absent_clocks_grow(table: &[u8]) -> Option<OpeningNumbers> {
    let mut opening = second_opening(table)?;
    let read = read_table(table).ok()?;
    let clocks = usize::from(read.components[opening[1] as usize].clocks);
    let tick = opening[3];
    opening[5 + clocks..9].fill(tick);
    Some(opening)
}

/// At a later opening the passages are counted within the component.
fn own_passages(table: &[u8]) -> Option<OpeningNumbers> {
    let mut opening = second_opening(table)?;
    if opening[3] > 0 {
        let read = read_table(table).ok()?;
        opening[2] -= read.components.len() as i64 - 1;
    }
    Some(opening)
}

/// No opening where there are too many.
fn not_with_7(table: &[u8]) -> Option<OpeningNumbers> {
    second_opening(table).filter(|opening| opening[0] != 7)
}

/// An opening of an accepted table.
fn always(table: &[u8]) -> Option<OpeningNumbers> {
    let first = [8, 0, 0, 0, 0, 0, 0, 0, 0, 0, 0, 0, 0, 0, 0, 0, 255, 255];
    Some(second_opening(table).unwrap_or(first))
}

#[test]
fn each_fault_is_found() {
    let faults: [(&str, LocatesOpening); 11] = [
        ("window_before_data", window_before_data),
        ("both", both),
        ("windows_of_one_tick", windows_of_one_tick),
        ("bounds_for_edges", bounds_for_edges),
        ("all_edges", all_edges),
        ("last_update", last_update),
        ("first_add", first_add),
        ("absent_clocks_grow", absent_clocks_grow),
        ("own_passages", own_passages),
        ("not_with_7", not_with_7),
        ("none at all", |_| None),
    ];
    for (name, fault) in faults {
        assert!(finds(of_openings, fault), "{name}");
        assert!(finds(stored, fault), "{name}, by the vectors");
    }
    assert!(finds(stored, always));
}
