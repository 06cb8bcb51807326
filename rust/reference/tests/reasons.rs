//! Why this edge: the vectors, hand-made cases, and what holds of any answer.

mod common;

use common::*;
use reference::calls::{self, edge_choice, Told, REASON};
use reference::checks::check_messages;
use reference::edge_choice::Entry;
use reference::reasons::{reasons, Reason, Reasons};
use reference::schedule::{window, Passage};
use reference::table::*;

/// A byte that no answer has.
const KEPT: u8 = 77;

/// As the vectors write it: the passage, then each edge with its reason.
fn words(reasons: &Reasons) -> String {
    let edges = reasons.edges.iter();
    let edges = edges.map(|(edge, reason)| format!("|{edge} {reason}"));
    format!("{}{}", reasons.passage, edges.collect::<String>())
}

/// The reason that two bytes stand for.
fn reason([number, bound]: [u8; 2]) -> Reason {
    let all = [
        Reason::Taken,
        Reason::DataBound(bound),
        Reason::NoWindow,
        Reason::ReadyLater,
        Reason::HigherNumber,
    ];
    let reason = all[usize::from(number)];
    assert_eq!(reason.bytes(), [number, bound]);
    reason
}

/// What is written into so many lent bytes; those past it are kept, all of them
/// after a refusal.
fn asked(table: &[u8], component: u32, tick: u32, lent: usize) -> Result<Reasons, Refusal> {
    let mut bytes = vec![KEPT; lent];
    let told = calls::reasons(table, component, tick, &mut bytes);
    let size = told.map_or(0, |told| told.size);
    let (written, past) = bytes.split_at(REASON * size);
    assert!(past.iter().all(|byte| *byte == KEPT));
    let edge = |bytes: &[u8]| (bytes[0], reason([bytes[1], bytes[2]]));
    let Told { passage, .. } = told?;
    let edges = written.chunks(REASON).map(edge).collect();
    Ok(Reasons { passage, edges })
}

#[test]
fn all_vectors() {
    let mut counts = [0; 2];
    for vector in vectors_of_reasons() {
        let mut request = vector.request.iter().map(String::as_str);
        let mut next = || request.next().unwrap();
        let (lent, kind) = match next() {
            "lent" => (next().parse().unwrap(), next()),
            kind => (96, kind),
        };
        assert_eq!(kind, "why");
        let table = unhex(next());
        let (component, tick) = (next().parse().unwrap(), next().parse().unwrap());
        let given = match asked(&table, component, tick, lent) {
            Ok(reasons) => words(&reasons),
            Err(refusal) => format!("refused {} {}", refusal.number, refusal.component),
        };
        assert_eq!(given, vector.answer, "{}", vector.name);
        counts[usize::from(given.starts_with("refused"))] += 1;
    }
    assert_eq!(counts, [114, 43]);
}

/// The worked example: each component has one edge from each location.
#[test]
fn the_example() {
    let table = probe_and_hub();
    for (component, tick, passage, edge) in [
        (0, 0, 0, 0),
        (0, 4, 0, 0),
        (0, 5, 2, 1),
        (1, 5, 1, 0),
        (1, 6, 3, 1),
        (0, 19, 6, 1),
        (1, 19, 7, 1),
    ] {
        let edges = vec![(edge, Reason::Taken)];
        let expected = Reasons { passage, edges };
        assert_eq!(asked(&table, component, tick, 3), Ok(expected));
    }
}

/// An edge from location 0 with this low and these data bounds on variable 0.
fn bounded(low: u16, bounds: &[(i16, i16)]) -> Edge {
    let bound = |&(low, high)| DataBound {
        variable: 0,
        low,
        high,
    };
    Edge {
        data_bounds: bounds.iter().map(bound).collect(),
        ..edge(0, 0, 1, low, internal(&[]))
    }
}

/// The reasons at tick 0 of a component with x0 ≤ 10 and these edges.
fn at_start(edges: Vec<Edge>) -> Vec<Reason> {
    let table = write_table(&table(1, vec![component(&[10, 10], edges)]));
    let reasons = asked(&table, 0, 0, 96).unwrap();
    assert_eq!(reasons.passage, 0);
    reasons.edges.iter().map(|(_, reason)| *reason).collect()
}

#[test]
fn the_five_reasons_in_their_order() {
    use Reason::*;
    let (holds, fails) = ((0, 0), (1, 1));
    assert_eq!(
        at_start(vec![
            bounded(4, &[holds, fails, fails]),
            bounded(10, &[fails]),
            bounded(10, &[holds]),
            bounded(5, &[]),
            bounded(4, &[]),
            bounded(4, &[holds]),
            bounded(9, &[]),
            bounded(3, &[(1, -1)]),
            bounded(11, &[]),
        ]),
        [
            DataBound(1),
            DataBound(0),
            NoWindow,
            ReadyLater,
            Taken,
            HigherNumber,
            ReadyLater,
            DataBound(0),
            NoWindow
        ]
    );
}

#[test]
fn edges_from_elsewhere_are_not_told() {
    let elsewhere = edge(1, 0, 0, 0, internal(&[]));
    let edges = vec![elsewhere, bounded(2, &[]), elsewhere, bounded(1, &[])];
    let table = write_table(&table(1, vec![component(&[10, 10], edges)]));
    let expected = Reasons {
        passage: 0,
        edges: vec![(1, Reason::ReadyLater), (3, Reason::Taken)],
    };
    assert_eq!(asked(&table, 0, 0, 6), Ok(expected));
    assert_eq!(asked(&table, 0, 0, 5), Err(refused(13, 255)));
}

/// The table's own refusal, then 21, then 13.
#[test]
fn the_order_of_the_refusals() {
    let table = probe_and_hub();
    let mut hub_low_3 = probe_and_hub_table();
    hub_low_3.components[1].edges[0] = edge(0, 2, 0, 3, receive(&[(0, 1)]));
    let hub_low_3 = write_table(&hub_low_3);
    for (component, tick) in [(2, 0), (0, 20), (256, 0), (u32::MAX, u32::MAX), (0, 65_536)] {
        for lent in [0, 96] {
            let refusal = |table| asked(table, component, tick, lent);
            assert_eq!(refusal(&table), Err(refused(21, 255)));
            assert_eq!(refusal(&hub_low_3), Err(refused(16, 0)));
            assert_eq!(refusal(&[]), Err(refused(1, 255)));
        }
    }
    assert_eq!(asked(&table, 0, 19, 2), Err(refused(13, 255)));
    assert_eq!(asked(&hub_low_3, 0, 19, 2), Err(refused(16, 0)));
}

/// An edge is a candidate of the passage exactly if its reason is none of the data
/// bound and the window, and one alone is taken: that of the edge choice.
fn agrees(table: &Table, passage: &Passage, told: &[(u8, Reason)]) {
    let component = &table.components[usize::from(passage.component)];
    let location = &component.locations[usize::from(passage.location)];
    let taken = told.iter().filter(|(_, reason)| *reason == Reason::Taken);
    assert_eq!(taken.map(|told| told.0).collect::<Vec<_>>(), [passage.edge]);
    for (number, reason) in told {
        let edge = &component.edges[usize::from(*number)];
        assert_eq!(edge.source, passage.location);
        let found = window(location, edge, &passage.clocks);
        let found = found.filter(|w| w.ready < w.end && w.ready + u32::from(edge.budget) <= w.end);
        let ready = found.map(|window| passage.entry + window.ready);
        let holds = edge.data_bounds_hold(&passage.variables);
        match reason {
            Reason::Taken => assert!(holds && ready == Some(passage.ready)),
            Reason::DataBound(bound) => {
                let values = &passage.variables;
                let mut bounds = edge.data_bounds.iter();
                let first = bounds.position(|b| !b.holds(values[usize::from(b.variable)]));
                assert_eq!(first, Some(usize::from(*bound)));
            }
            Reason::NoWindow => assert!(holds && ready.is_none()),
            Reason::ReadyLater => assert!(holds && ready > Some(passage.ready)),
            Reason::HigherNumber => {
                assert!(holds && ready == Some(passage.ready) && *number > passage.edge)
            }
        }
    }
}

/// Each passage of each schedule, asked at its first and its last tick below H.
#[test]
fn each_passage_is_named_from_its_entry_to_its_end() {
    let mut counts = [0; 5];
    for_each_schedule(20_000, |table, passages| {
        if check_messages(table, passages).is_err() {
            return;
        }
        for (number, passage) in passages.iter().enumerate().take(40) {
            let last = passage.end.min(table.horizon.into()) - 1;
            let at = |tick| reasons(table, passages, passage.component.into(), tick).unwrap();
            let told = at(passage.entry);
            assert_eq!((told.passage, &told), (number, &at(last)));
            agrees(table, passage, &told.edges);
            let component = &table.components[usize::from(passage.component)];
            let leaving = component.edges.iter();
            let leaving = leaving.filter(|edge| edge.source == passage.location);
            assert_eq!(leaving.count(), told.edges.len());
            for (_, reason) in told.edges {
                counts[usize::from(reason.bytes()[0])] += 1;
            }
        }
    });
    println!("{counts:?}");
    assert!(counts.iter().all(|count| *count > 50), "{counts:?}");
}

/// The edge taken is that of wish 5's call at the passage's entry.
#[test]
fn the_edge_taken_is_that_of_the_edge_choice() {
    let table = probe_and_hub_table();
    let bytes = write_table(&table);
    let passages = reference::schedule::schedule(&table).unwrap();
    for passage in &passages {
        let entry = Entry {
            location: passage.location,
            clocks: passage.clocks,
            variables: passage.variables,
        };
        let choice = edge_choice(&bytes, passage.component, &entry).unwrap();
        let told = reasons(&table, &passages, passage.component.into(), passage.entry).unwrap();
        let taken = told.edges.iter().find(|told| told.1 == Reason::Taken);
        let edge = taken.map(|told| usize::from(told.0));
        assert_eq!(edge, choice.taken.map(|taken| taken.0));
    }
}
