//! Windows, candidates and checks 7 to 9, against hand-made cases and against
//! the definitions tried tick by tick.

mod common;

use common::*;
use reference::schedule::*;
use reference::table::*;

fn refusal(table: &Table) -> Option<Refusal> {
    assert_eq!(read_table(&write_table(table)).as_ref(), Ok(table));
    schedule(table).err()
}

#[test]
fn check_7_counts_all_passages() {
    assert_eq!(refusal(&table(1024, vec![steady(1)])), None);
    assert_eq!(refusal(&table(1025, vec![steady(1)])), Some(refused(7, 0)));
    assert_eq!(refusal(&table(512, vec![steady(1), steady(1)])), None);
    let one_more = table(513, vec![steady(1), steady(1)]);
    assert_eq!(refusal(&one_more), Some(refused(7, 0)));
    let second = table(1024, vec![steady(1024), steady(1)]);
    assert_eq!(refusal(&second), Some(refused(7, 1)));
    let one_less = table(1023, vec![steady(1024), steady(1)]);
    assert_eq!(schedule(&one_less).unwrap().len(), 1024);
}

#[test]
fn check_8_wants_a_candidate() {
    let to_nowhere = |horizon| {
        let edges = vec![edge(0, 1, 1, 0, internal(&[]))];
        refusal(&table(horizon, vec![steady(5), component(&[5, 5], edges)]))
    };
    assert_eq!(to_nowhere(5), None);
    assert_eq!(to_nowhere(6), Some(refused(8, 1)));
    let low = |low| {
        let edges = vec![edge(0, 0, 1, low, internal(&[]))];
        refusal(&table(3, vec![component(&[5], edges)]))
    };
    assert_eq!(low(4), None);
    assert_eq!(low(5), Some(refused(8, 0)), "a window of one tick");
    assert_eq!(low(6), Some(refused(8, 0)), "no window");
}

#[test]
fn check_8_comes_before_9_and_7_before_8() {
    let over = internal(&[(Operation::Set, 32_767), (Operation::Add, 1)]);
    let both = vec![edge(0, 0, 0, 5, over)];
    let case = table(9, vec![component(&[5], both)]);
    assert_eq!(refusal(&case), Some(refused(8, 0)));
    // After 1,024 passages the count is past the bound: no candidate either.
    let mut counting = edge(0, 0, 1, 0, internal(&[(Operation::Add, 1)]));
    counting.data_bounds.push(DataBound {
        variable: 0,
        low: 0,
        high: 1023,
    });
    let full = |horizon| refusal(&table(horizon, vec![component(&[1], vec![counting])]));
    assert_eq!(full(1024), None);
    assert_eq!(full(1025), Some(refused(7, 0)));
}

#[test]
fn check_9_each_update_of_an_opened_passage() {
    let adding = |horizon, updates| {
        let edges = vec![edge(0, 0, 1, 0, internal(updates))];
        refusal(&table(horizon, vec![component(&[2], edges)]))
    };
    let many: &[(Operation, i16)] = &[(Operation::Add, 10_000)];
    assert_eq!(adding(6, many), None);
    assert_eq!(adding(7, many), Some(refused(9, 0)), "the fourth opening");
    let down: &[(Operation, i16)] = &[(Operation::Add, -32_768)];
    assert_eq!(adding(2, down), None);
    assert_eq!(adding(3, down), Some(refused(9, 0)));
    let back: &[(Operation, i16)] = &[
        (Operation::Set, 32_767),
        (Operation::Add, 1),
        (Operation::Add, -1),
    ];
    assert_eq!(adding(1, back), Some(refused(9, 0)), "out and back");
}

#[test]
fn the_least_ready_and_the_lowest_number_win() {
    let first = |lows: &[u16]| {
        let edges = lows.iter().map(|l| edge(0, 0, 1, *l, internal(&[])));
        let case = table(1, vec![component(&[9], edges.collect())]);
        schedule(&case).unwrap()[0]
    };
    assert_eq!(first(&[4, 2, 3]).edge, 1);
    assert_eq!(first(&[4, 2, 2]).edge, 1);
    assert_eq!(first(&[9, 8]).edge, 1, "a window of one tick is none");
    let passage = first(&[9, 8]);
    assert_eq!((passage.ready, passage.end), (8, 9));
}

#[test]
fn data_bounds_choose_the_edge() {
    let mut leaving = edge(0, 1, 1, 0, internal(&[]));
    leaving.data_bounds.push(DataBound {
        variable: 0,
        low: 2,
        high: 9,
    });
    let counting = edge(0, 0, 1, 1, internal(&[(Operation::Add, 1)]));
    let staying = edge(1, 1, 1, 0, internal(&[]));
    let case = table(
        7,
        vec![component(&[2, 3], vec![leaving, counting, staying])],
    );
    let edges: Vec<u8> = schedule(&case).unwrap().iter().map(|p| p.edge).collect();
    assert_eq!(edges, [1, 1, 0, 2]);
}

#[test]
fn an_empty_bound_holds_for_no_value() {
    let bound = DataBound {
        variable: 0,
        low: 1,
        high: 0,
    };
    assert!((-3..3).all(|value| !bound.holds(value)));
    let edge = Edge {
        clock_bounds: [clock_bound(4, Some(3))].into_iter().collect(),
        ..edge(0, 0, 0, 0, internal(&[]))
    };
    assert_eq!(window(&location(9), &edge, &[0; 4]), None);
}

/// The window against its definition, tried tick by tick.
#[test]
fn windows_by_definition() {
    let mut numbers = Numbers(7);
    for _ in 0..100_000 {
        let clocks = [0; 4].map(|_: u32| numbers.below(12) as u32);
        let location = Location {
            clock: numbers.below(4) as u8,
            bound: numbers.below(15) as u16,
        };
        let mut edge = edge(0, 0, 0, 0, internal(&[]));
        edge.clock_bounds = (0..numbers.below(5))
            .map(|_| any_bound(&mut numbers))
            .collect();
        let holds = |delay: &u32| bounds_hold(&location, &edge, clocks.map(|c| c + delay));
        let expected = (0..40).find(holds).map(|ready| Window {
            ready,
            end: (0..40).rfind(holds).unwrap(),
        });
        assert_eq!(window(&location, &edge, &clocks), expected);
    }
}

fn any_bound(numbers: &mut Numbers) -> ClockBound {
    ClockBound {
        clock: numbers.below(4) as u8,
        low: numbers.below(15) as u16,
        high: [None, Some(numbers.below(25) as u16)][numbers.below(2)],
    }
}

fn bounds_hold(location: &Location, edge: &Edge, clocks: Clocks) -> bool {
    let value = |clock: u8| clocks[clock as usize];
    value(location.clock) <= location.bound.into()
        && edge.clock_bounds.iter().all(|b| {
            u32::from(b.low) <= value(b.clock)
                && b.high.is_none_or(|high| value(b.clock) <= high.into())
        })
}

/// "the one ending first, ties to the lowest component", whichever opened
/// first.
#[test]
fn which_message_is_taken() {
    let early = |channel, end| {
        component(
            &[end, 99],
            vec![
                edge(0, 1, 0, 3, Action::Send(channel)),
                edge(1, 1, 0, 98, internal(&[])),
            ],
        )
    };
    let late = |channel, end| {
        component(
            &[2, end, 99],
            vec![
                edge(0, 1, 0, 1, internal(&[])),
                edge(1, 2, 0, 3, Action::Send(channel)),
                edge(2, 2, 0, 98, internal(&[])),
            ],
        )
    };
    let hub = component(
        &[9, 99, 99],
        vec![
            edge(0, 1, 0, 2, receive(&[(0, 1), (1, 2)])),
            edge(1, 1, 0, 98, internal(&[])),
            edge(2, 2, 0, 98, internal(&[])),
        ],
    );
    let message = |first: Component, second: Component| {
        let mut case = table(20, vec![first, second, hub.clone()]);
        case.channels = 2;
        let passages = schedule(&case).unwrap();
        let place = passages.iter().position(|p| p.component == 2).unwrap();
        let next = passages.iter().rfind(|p| p.component == 2).unwrap();
        let message = passages[place].message;
        assert_eq!(next.location, message.map_or(1, |channel| channel + 1));
        message
    };
    assert_eq!(message(early(0, 8), late(1, 8)), Some(0));
    assert_eq!(message(late(0, 8), early(1, 8)), Some(0));
    assert_eq!(message(early(1, 8), late(0, 8)), Some(1));
    assert_eq!(message(late(1, 8), early(0, 8)), Some(1));
    assert_eq!(message(early(0, 8), late(1, 7)), Some(1));
    assert_eq!(message(late(0, 8), early(1, 7)), Some(1));
    assert_eq!(message(early(0, 9), late(1, 10)), None);
}

/// The message of every receive passage against its definition over the
/// finished schedule, and what holds along every list.
#[test]
fn messages_by_definition() {
    let (mut receives, mut messages) = (0, 0);
    for_each_schedule(40_000, |table, passages| {
        assert!(passages.windows(2).all(|p| p[0].entry <= p[1].entry));
        for passage in passages {
            let Action::Receive(_) = passage.edge_in(table).action else {
                continue;
            };
            assert_eq!(
                passage.message,
                message_by_definition(table, passages, passage)
            );
            receives += 1;
            messages += usize::from(passage.message.is_some());
        }
    });
    println!("{receives} receive passages, {messages} messages");
    assert!(receives > 1000 && messages > 1000);
}

fn message_by_definition(table: &Table, passages: &[Passage], receive: &Passage) -> Option<u8> {
    let edge = receive.edge_in(table);
    let sends = passages
        .iter()
        .filter_map(|p| match p.edge_in(table).action {
            Action::Send(channel) => Some((p, channel)),
            _ => None,
        });
    let fitting = sends.filter(|(send, channel)| {
        send.component != receive.component
            && edge.listens_to(*channel)
            && receive.ready < send.ready
            && send.ready < table.horizon.into()
            && send.end < receive.end
    });
    fitting
        .min_by_key(|(send, _)| (send.end, send.component))
        .map(|(_, channel)| channel)
}
