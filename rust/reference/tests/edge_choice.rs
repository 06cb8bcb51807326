//! The edge choice: hand-made cases, and that the edges which are not looked at
//! change nothing.

mod common;

use common::*;
use reference::calls;
use reference::edge_choice::{edge_choice, EdgeChoice, Entry};
use reference::schedule::{Window, MAX_PASSAGES};
use reference::table::*;

/// A component of one location, x0 ≤ 50, and edges from there with these lows
/// and highs.
fn component(bounds: &[(u16, Option<u16>)]) -> Component {
    let edges = bounds.iter().map(|&(low, high)| Edge {
        clock_bounds: [clock_bound(low, high)].into_iter().collect(),
        ..edge(0, 0, 1, 0, internal(&[]))
    });
    Component {
        initial: 0,
        clocks: 1,
        variables: 1,
        locations: vec![location(50)],
        edges: edges.collect(),
    }
}

fn table(component: Component) -> Table {
    Table {
        version: 1,
        bands: Vec::new(),
        channels: 0,
        horizon: 9,
        components: vec![component],
    }
}

fn at(clock: u32) -> Entry {
    Entry {
        location: 0,
        clocks: [clock, 0, 0, 0],
        variables: [0; 4],
    }
}

/// The number of the edge taken, and how many were looked at.
fn chosen(component: Component, entry: &Entry) -> (Option<usize>, usize) {
    let bytes = write_table(&table(component));
    let choice = calls::edge_choice(&bytes, 0, entry).unwrap();
    (choice.taken.map(|(edge, _)| edge), choice.looked)
}

#[test]
fn the_lowest_that_is_ready_at_once() {
    let lows = |lows: &[u16]| component(&lows.iter().map(|&l| (l, None)).collect::<Vec<_>>());
    assert_eq!(chosen(lows(&[3, 0, 0, 1]), &at(0)), (Some(1), 2));
    assert_eq!(chosen(lows(&[5, 2, 2, 4]), &at(0)), (Some(1), 4));
    assert_eq!(chosen(lows(&[5, 2, 2, 4]), &at(2)), (Some(1), 2));
    assert_eq!(chosen(lows(&[5, 2, 2, 4]), &at(5)), (Some(0), 1));
    assert_eq!(chosen(lows(&[60, 60]), &at(0)), (None, 2));
    let highs = |high| component(&[(0, Some(high)), (0, None), (0, None)]);
    assert_eq!(chosen(highs(0), &at(0)), (Some(1), 2), "no window");
    assert_eq!(chosen(highs(1), &at(0)), (Some(0), 1));
}

#[test]
fn edges_from_elsewhere_count_and_data_bounds_are_asked() {
    let mut two = component(&[(0, None), (0, None), (0, None)]);
    two.locations.push(location(50));
    two.edges[0].source = 1;
    two.edges[1].data_bounds.push(DataBound {
        variable: 0,
        low: 1,
        high: 1,
    });
    assert_eq!(chosen(two.clone(), &at(0)), (Some(2), 3));
    let one = Entry {
        variables: [1, 0, 0, 0],
        ..at(0)
    };
    assert_eq!(chosen(two.clone(), &one), (Some(1), 2));
    let elsewhere = Entry {
        location: 1,
        ..at(0)
    };
    assert_eq!(chosen(two.clone(), &elsewhere), (Some(0), 1));
    let nowhere = Entry {
        location: 2,
        ..at(0)
    };
    assert_eq!(chosen(two, &nowhere), (None, 3));
}

#[test]
fn an_absent_component_and_a_refused_table() {
    let bytes = write_table(&table(component(&[(0, None)])));
    let none = EdgeChoice {
        taken: None,
        looked: 0,
    };
    for component in [1, 7, 8, 255] {
        assert_eq!(calls::edge_choice(&bytes, component, &at(0)), Ok(none));
    }
    let refused = calls::edge_choice(&bytes[1..], 0, &at(0));
    assert_eq!(refused, Err(Refusal::whole(1)));
}

/// A search that stops: the edges one by one, no further than the first that is
/// ready at once; which one is best, and how many were tried.
fn stopping(component: &Component, entry: &Entry) -> EdgeChoice {
    let mut best: Option<(usize, Window)> = None;
    let mut looked = 0;
    for edge in &component.edges {
        let alone = Component {
            edges: vec![*edge],
            ..component.clone()
        };
        let window = edge_choice(&table(alone), 0, entry).taken;
        if let Some((_, window)) = window {
            if best.is_none_or(|(_, kept)| window.ready < kept.ready) {
                best = Some((looked, window));
            }
        }
        looked += 1;
        if best.is_some_and(|(_, window)| window.ready == 0) {
            break;
        }
    }
    EdgeChoice {
        taken: best,
        looked,
    }
}

#[test]
fn a_search_that_stops_finds_the_same() {
    let mut numbers = Numbers(5);
    let mut stopped = 0;
    for _ in 0..20 * MAX_PASSAGES {
        let count = 1 + numbers.below(8);
        let bounds: Vec<_> = (0..count)
            .map(|_| {
                let low = numbers.below(3) as u16;
                let high = low + numbers.below(3) as u16;
                (low, (numbers.below(2) == 0).then_some(high))
            })
            .collect();
        let component = component(&bounds);
        let entry = at(numbers.below(4) as u32);
        let whole = edge_choice(&table(component.clone()), 0, &entry);
        assert_eq!(whole, stopping(&component, &entry), "{bounds:?}");
        let first = Component {
            edges: component.edges[..whole.looked].to_vec(),
            ..component.clone()
        };
        assert_eq!(edge_choice(&table(first), 0, &entry), whole);
        stopped += usize::from(whole.looked < component.edges.len());
    }
    assert!(stopped > 1000, "{stopped}");
}
