//! Edges with a work budget, document 02's wish 8: hand-made cases at both sides of
//! each boundary, and what holds of any table. The vectors have more cases.

mod common;

use common::*;
use reference::calls::{self, check, edge_choice, refusal_place, refused_opening};
use reference::edge_choice::Entry;
use reference::opening::NoCandidate;
use reference::opening::OpeningFault;
use reference::place::{Part, Place};
use reference::program::{decode, part_bytes, program};
use reference::reasons::{reasons, Reason};
use reference::run::{run, End};
use reference::schedule::{schedule, window};
use reference::table::*;

/// A component with x0 ≤ 10 and edges back to its one location: the low, and the
/// budget.
fn valve(edges: &[(u16, u16)]) -> Table {
    let edges = edges.iter().map(|&(low, budget)| Edge {
        budget,
        ..edge(0, 0, 1, low, internal(&[]))
    });
    let mut table = table(30, vec![component(&[10], edges.collect())]);
    table.version = 3;
    table
}

fn verdict(table: &Table) -> Result<(), Refusal> {
    check(&write_table(table))
}

/// The edge taken at tick 0, and how many are looked at.
fn chosen(table: &Table) -> (Option<usize>, usize) {
    let start = Entry {
        location: 0,
        clocks: [0; 4],
        variables: [0; 4],
    };
    let choice = edge_choice(&write_table(table), 0, &start).unwrap();
    (choice.taken.map(|(edge, _)| edge), choice.looked)
}

#[test]
fn a_budget_stands_behind_the_seven_bytes() {
    let table = budgeted([2, 60_000, 0, 258, 1]);
    let bytes = write_table(&table);
    // 103 bytes, one band, five budgets.
    assert_eq!((bytes.len(), bytes[0]), (114, 3));
    assert_eq!(hex(&bytes[21..36]), "010001000100010002000003ffff00");
    assert_eq!(hex(&bytes[36..45]), "00010001010000ea60");
    assert_eq!(read_table(&bytes), Ok(table.clone()));
    let directory = check_only(&bytes).unwrap();
    assert_eq!(directory.entries[0].first_edge, 21);
    assert_eq!(directory.entries[1].first_location, 57);
    let mut plain = table;
    plain.version = 2;
    let bytes = write_table(&plain);
    assert_eq!(bytes.len(), 104);
    let read = read_table(&bytes).unwrap();
    let edges = read.components.iter().flat_map(|c| &c.edges);
    assert!(edges.map(|edge| edge.budget).all(|budget| budget == 0));
}

/// The windows of the probe's edges have 2 ticks, that of the hub's receive 4, those
/// of its internal edges 1.
#[test]
fn a_window_as_long_as_its_budget() {
    assert_eq!(verdict(&budgeted([0; 5])), Ok(()));
    assert_eq!(verdict(&budgeted([2, 2, 4, 1, 1])), Ok(()));
    for (edge, component) in [(0, 0), (1, 0), (2, 1), (3, 1)] {
        let mut budgets = [2, 2, 4, 1, 1];
        budgets[edge] += 1;
        let table = budgeted(budgets);
        assert_eq!(verdict(&table), Err(refused(8, component)), "{edge}");
        let mut plain = table;
        (plain.version, plain.bands) = (1, Vec::new());
        assert_eq!(verdict(&plain), Ok(()), "{edge}, without budgets");
    }
    // No message is ever missed, so the third location is not entered.
    assert_eq!(verdict(&budgeted([2, 2, 4, 1, 60_000])), Ok(()));
    let plain = schedule(&probe_and_hub_table()).unwrap();
    assert_eq!(schedule(&budgeted([2, 2, 4, 1, 1])), Ok(plain));
}

#[test]
fn the_greatest_budget() {
    assert_eq!(verdict(&valve(&[(0, 10)])), Ok(()));
    assert_eq!(verdict(&valve(&[(0, 11)])), Err(refused(8, 0)));
    assert_eq!(verdict(&valve(&[(0, 60_000)])), Err(refused(8, 0)));
    assert_eq!(verdict(&valve(&[(0, 60_001)])), Err(refused(5, 0)));
    assert_eq!(verdict(&valve(&[(0, 65_535)])), Err(refused(5, 0)));
    let mut long = valve(&[(0, 60_000)]);
    long.horizon = 60_000;
    long.components[0].locations[0].bound = 60_000;
    assert_eq!(verdict(&long), Ok(()));
    long.components[0].locations[0].bound = 59_999;
    assert_eq!(verdict(&long), Err(refused(8, 0)));
}

/// A budget of 0 asks for nothing more: a window of one tick is none still.
#[test]
fn no_budget_leaves_the_window_of_one_tick_out() {
    assert_eq!(verdict(&valve(&[(10, 0)])), Err(refused(8, 0)));
    assert_eq!(verdict(&valve(&[(9, 0)])), Ok(()));
    assert_eq!(verdict(&valve(&[(9, 1)])), Ok(()));
    assert_eq!(verdict(&valve(&[(9, 2)])), Err(refused(8, 0)));
}

/// An edge that is ready at once ends the search only if its window is long enough.
#[test]
fn the_choice_passes_over_short_windows() {
    assert_eq!(chosen(&valve(&[(0, 10), (0, 0)])), (Some(0), 1));
    assert_eq!(chosen(&valve(&[(0, 11), (0, 0)])), (Some(1), 2));
    assert_eq!(chosen(&valve(&[(0, 11), (3, 0), (4, 0)])), (Some(1), 3));
    assert_eq!(chosen(&valve(&[(4, 7), (4, 6), (4, 0)])), (Some(1), 3));
    assert_eq!(chosen(&valve(&[(2, 9), (5, 5), (5, 6)])), (Some(1), 3));
    assert_eq!(chosen(&valve(&[(2, 9), (5, 6)])), (None, 2));
}

fn told(table: &Table) -> Vec<Reason> {
    let passages = schedule(table).unwrap();
    let told = reasons(table, &passages, 0, 0).unwrap();
    told.edges.iter().map(|(_, reason)| *reason).collect()
}

#[test]
fn a_shorter_window_is_under_the_window_reason() {
    let table = valve(&[(1, 10), (2, 8), (1, 9), (2, 8), (2, 9), (10, 0), (3, 7)]);
    let expected = [
        Reason::NoWindow,
        Reason::ReadyLater,
        Reason::Taken,
        Reason::ReadyLater,
        Reason::NoWindow,
        Reason::NoWindow,
        Reason::ReadyLater,
    ];
    assert_eq!(told(&table), expected);
    let together = valve(&[(1, 9), (1, 9), (1, 10)]);
    let expected = [Reason::Taken, Reason::HigherNumber, Reason::NoWindow];
    assert_eq!(told(&together), expected);
    let mut blocked = valve(&[(1, 10), (0, 0)]);
    let bound = DataBound {
        variable: 0,
        low: 1,
        high: 2,
    };
    blocked.components[0].edges[0].data_bounds = [bound].into_iter().collect();
    assert_eq!(told(&blocked), [Reason::DataBound(0), Reason::Taken]);
}

#[test]
fn an_opening_without_a_window_long_enough() {
    let bytes = write_table(&valve(&[(0, 11), (10, 0), (3, 8)]));
    let opening = refused_opening(&bytes).unwrap();
    let fault = OpeningFault::NoCandidate(NoCandidate {
        leaving: 3,
        blocked: 0,
        windowless: 3,
    });
    assert_eq!((opening.passage, opening.fault), (0, fault));
    assert_eq!(
        refused_opening(&write_table(&valve(&[(0, 11), (3, 7)]))),
        None
    );
}

/// The budget of the one edge stands at 24, behind its 7 bytes at 17.
#[test]
fn the_place_of_a_budget() {
    let place = Place {
        number: 5,
        component: 0,
        part: Part::Budget,
        edge: Some(0),
        index: None,
        start: 24,
        offset: 0,
        width: 2,
        value: 60_001,
        least: 0,
        limit: 60_001,
        unbounded: false,
    };
    let table = valve(&[(0, 60_001)]);
    let bytes = write_table(&table);
    assert_eq!(refusal_place(&bytes), Some(place));
    assert_eq!(place.to_string(), "5 0 12 0 - 24 0 2 60001 0 60001 0");
    assert_eq!(refusal_place(&write_table(&valve(&[(0, 60_000)]))), None);
    for there in 0..2 {
        let mut short = bytes[..24 + there].to_vec();
        (short[2], short[8]) = (short.len() as u8, short.len() as u8 - 7);
        assert_eq!(check(&short), Err(refused(4, 0)));
        let unfit = Place {
            number: 4,
            width: 0,
            value: there as u32,
            least: 2,
            limit: 8193,
            ..place
        };
        assert_eq!(refusal_place(&short), Some(unfit));
    }
}

/// The first fault counts: the 7 bytes, then the budget, then the bounds.
#[test]
fn the_budget_is_read_in_its_place() {
    let faults = |change: fn(&mut Edge)| {
        let mut table = valve(&[(0, 60_001)]);
        change(&mut table.components[0].edges[0]);
        refusal_place(&write_table(&table)).map(|place| (place.number, place.part))
    };
    assert_eq!(faults(|_| ()), Some((5, Part::Budget)));
    assert_eq!(faults(|edge| edge.source = 1), Some((5, Part::Edge)));
    let bounds =
        faults(|edge| edge.clock_bounds = [clock_bound(60_001, None)].into_iter().collect());
    assert_eq!(bounds, Some((5, Part::Budget)));
    let twice = faults(|edge| edge.action = receive(&[(0, 0), (0, 0)]));
    assert_eq!(twice, Some((5, Part::Budget)));
}

#[test]
fn statement_12_stands_before_keep_in_version_3_alone() {
    let table = valve(&[(3, 7), (4, 0)]);
    let lines = decode(part_bytes(&program(&table), 0));
    let block = "L0:|trial|high x0 <= 10|low x0 >= 3|budget 7|keep e0|\
                 trial|high x0 <= 10|low x0 >= 4|budget 0|keep e1|take";
    let lines: Vec<&str> = lines.iter().map(|line| line.trim()).collect();
    assert_eq!(lines[..12].join("|"), block);
    let bytes = program(&table);
    assert_eq!(bytes[0], 3);
    assert!(bytes.windows(4).any(|w| w == [0x12, 0, 0, 7]));
    for version in [1, 2] {
        let mut other = table.clone();
        other.version = version;
        let lines = decode(part_bytes(&program(&other), 0));
        assert!(lines.iter().all(|line| !line.contains("budget")));
        assert_eq!(program(&other).len(), bytes.len() - 8);
    }
}

/// A run takes the edge of the schedule: the one before has too short a window.
#[test]
fn a_run_takes_the_edge_that_is_long_enough() {
    let table = valve(&[(2, 9), (5, 5)]);
    let passages = schedule(&table).unwrap();
    assert_eq!(
        (passages[0].edge, passages[0].ready, passages[0].end),
        (1, 5, 10)
    );
    // 11 statements up to the take, then 5 ticks to the sleep.
    let mut choices = vec![0; 11];
    choices.extend([255; 5]);
    choices.push(0);
    let run = run(&table, &passages, &program(&table), &choices).unwrap();
    assert_eq!((run.outcome.end, run.outcome.used), (End::UsedUp, 17));
    assert_eq!(run.observations[0][..8], [0, 1, 0, 0, 0, 0, 0, 5]);
    let short = valve(&[(2, 9), (5, 6)]);
    assert_eq!(calls::check(&write_table(&short)), Err(refused(8, 0)));
}

/// Raising one budget of a table: up to the length of the shortest window in which its
/// edge is taken nothing changes, past it the schedule does.
#[test]
fn budgets_up_to_the_windows_change_nothing() {
    let (mut same, mut changed) = (0, 0);
    for_each_schedule(4_000, |table, passages| {
        let mut shortest = [[u32::MAX; MAX_EDGES as usize]; MAX_COMPONENTS];
        for passage in passages {
            let least = &mut shortest[usize::from(passage.component)][usize::from(passage.edge)];
            *least = (*least).min(passage.end - passage.ready);
        }
        let mut budgeted = table.clone();
        budgeted.version = 3;
        for (component, least) in budgeted.components.iter_mut().zip(&shortest) {
            for (edge, least) in component.edges.iter_mut().zip(least) {
                edge.budget = (*least).min(60_000) as u16;
            }
        }
        if table.version < 3 {
            assert_eq!(schedule(&budgeted).as_deref(), Ok(passages));
            same += 1;
        }
        let first = &passages[0];
        let edge = &mut budgeted.components[0].edges[usize::from(first.edge)];
        if shortest[0][usize::from(first.edge)] < 60_000 {
            edge.budget += 1;
            assert_ne!(schedule(&budgeted).as_deref(), Ok(passages));
            changed += 1;
        }
    });
    assert!(same > 500 && changed > 500, "{same} {changed}");
}

/// Each edge taken in a table of version 3 has a window as long as its budget.
#[test]
fn each_passage_has_time_for_its_budget() {
    let mut count = 0;
    for_each_schedule(20_000, |table, passages| {
        for passage in passages {
            let edge = passage.edge_in(table);
            assert!(passage.end - passage.ready >= edge.budget.into());
            let component = &table.components[usize::from(passage.component)];
            let location = &component.locations[usize::from(passage.location)];
            let window = window(location, edge, &passage.clocks).unwrap();
            assert!(window.is_long_enough(edge));
            count += usize::from(edge.budget > 0);
        }
    });
    assert!(count > 100, "{count}");
}
