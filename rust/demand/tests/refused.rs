//! Runs of tables that fail one of the checks 10 to 12 break the demand, each
//! in the sentence that the check is there for; so do runs of accepted tables
//! with a schedule that lacks something.

mod common;

use common::*;
use reference::checks::check_messages;
use reference::schedule::{schedule, Passage};
use reference::table::*;

/// A location with the invariant x0 ≤ bound.
fn location(bound: u16) -> Location {
    Location { clock: 0, bound }
}

/// An edge from a location to the next with the bound x0 ≥ low.
fn edge(source: u8, low: u16, action: Action) -> Edge {
    let bound = ClockBound {
        clock: 0,
        low,
        high: None,
    };
    Edge {
        source,
        destination: source + 1,
        clock_bounds: [bound].into_iter().collect(),
        action,
        ..Edge::default()
    }
}

/// A component with these windows and works, one after the other, and a wait.
fn component(windows: &[(u16, u16, Action)]) -> Component {
    let numbered = || (0..).zip(windows);
    let last = windows.len() as u8;
    let mut locations: Vec<Location> = windows.iter().map(|w| location(w.1)).collect();
    locations.push(location(60));
    let mut edges: Vec<Edge> = numbered().map(|(l, w)| edge(l, w.0, w.2)).collect();
    edges.push(Edge {
        destination: last,
        ..edge(last, 50, Action::default())
    });
    Component {
        initial: 0,
        clocks: 1,
        variables: 0,
        locations,
        edges,
    }
}

fn sender(windows: &[(u16, u16)]) -> Component {
    let all: Vec<_> = windows
        .iter()
        .map(|w| (w.0, w.1, Action::Send(0)))
        .collect();
    component(&all)
}

/// A listener to channel 0; a message leads where a timeout leads.
fn hub(windows: &[(u16, u16)]) -> Component {
    let listen = |location: u8| {
        let pair = Pair {
            channel: 0,
            location,
        };
        Action::Receive([pair].into_iter().collect())
    };
    let numbered = (1..).zip(windows);
    let all: Vec<_> = numbered.map(|(next, w)| (w.0, w.1, listen(next))).collect();
    component(&all)
}

fn table(horizon: u16, components: Vec<Component>) -> Table {
    Table {
        version: 1,
        bands: Vec::new(),
        channels: 1,
        horizon,
        components,
    }
}

/// The number of the refusal, and what is wrong with those of many runs that
/// break the demand.
fn broken(components: Vec<Component>) -> (u8, Vec<String>) {
    let table = table(40, components);
    let passages = schedule(&table).unwrap();
    let number = check_messages(&table, &passages).map_or_else(|refusal| refusal.number, |()| 0);
    (number, problems(&table, &passages))
}

/// What is wrong with those of many runs that break the demand.
fn problems(table: &Table, passages: &[Passage]) -> Vec<String> {
    let mut numbers = Numbers(88_172_645_463_325_252);
    let mut run = |_| {
        let choices = any_choices(&mut numbers, table, passages);
        held(table, passages, &choices).err()
    };
    (0..400).filter_map(&mut run).collect()
}

#[test]
fn an_accepted_table_breaks_nothing() {
    let accepted = broken(vec![sender(&[(3, 5), (8, 9)]), hub(&[(2, 6), (7, 10)])]);
    assert_eq!(accepted, (0, Vec::new()));
}

/// Whether one of the problems has the sentence's name and these words in it.
fn told(problems: &[String], name: &str, words: &str) -> bool {
    let told = |problem: &&String| problem.starts_with(name) && problem.contains(words);
    problems.iter().any(|problem| told(&problem))
}

#[test]
fn a_listener_that_starts_with_its_sender() {
    let (number, problems) = broken(vec![sender(&[(3, 5)]), hub(&[(3, 6)])]);
    assert_eq!(number, 16);
    assert!(told(
        &problems,
        "listener: ",
        "node 0, yet to send, has not exactly one listener"
    ));
}

#[test]
fn a_listener_that_ends_with_its_sender() {
    let (number, problems) = broken(vec![sender(&[(3, 5)]), hub(&[(2, 5)])]);
    assert_eq!(number, 17);
    assert!(told(
        &problems,
        "listener: ",
        "node 0, yet to send, has not exactly one listener"
    ));
    assert!(told(
        &problems,
        "scheduled: ",
        "not with (0, None) as the schedule says"
    ));
}

#[test]
fn two_listeners() {
    let (number, problems) = broken(vec![sender(&[(3, 5)]), hub(&[(2, 6)]), hub(&[(1, 7)])]);
    assert_eq!(number, 15);
    assert!(told(
        &problems,
        "listener: ",
        "node 0, yet to send, has not exactly one listener"
    ));
}

#[test]
fn two_senders_for_one_listener() {
    let one_after_the_other = vec![sender(&[(3, 5)]), sender(&[(7, 9)]), hub(&[(2, 10)])];
    let (number, problems) = broken(one_after_the_other);
    assert_eq!(number, 12);
    assert!(told(
        &problems,
        "listener: ",
        "node 1, yet to send, has not exactly one listener"
    ));
}

/// Tick 4 is the horizon, and both windows are open then. The message may pass
/// at tick 3.
fn open_at_the_horizon() -> (Table, Vec<Passage>) {
    let table = table(4, vec![sender(&[(3, 5)]), hub(&[(2, 6)])]);
    let passages = schedule(&table).unwrap();
    assert_eq!(passages.len(), 2);
    (table, passages)
}

#[test]
fn an_open_passage_without_its_message() {
    let (table, mut passages) = open_at_the_horizon();
    assert_eq!(passages[1].message, Some(0));
    assert_eq!(problems(&table, &passages), Vec::<String>::new());
    passages[1].message = None;
    let problems = problems(&table, &passages);
    assert!(told(
        &problems,
        "scheduled: ",
        "not with (0, None) as the schedule says"
    ));
}

/// A send that ends behind the horizon counts too: its listener starts with it.
#[test]
fn a_send_that_ends_behind_the_horizon() {
    let table = table(4, vec![sender(&[(3, 5)]), hub(&[(3, 6)])]);
    let passages = schedule(&table).unwrap();
    let refusal = check_messages(&table, &passages).unwrap_err();
    assert_eq!(refusal.number, 16);
    let problems = problems(&table, &passages);
    assert!(told(
        &problems,
        "listener: ",
        "node 0, yet to send, has not exactly one listener"
    ));
}

#[test]
fn a_schedule_with_other_values() {
    let components = vec![sender(&[(3, 5), (8, 9)]), hub(&[(2, 6), (7, 10)])];
    let table = table(40, components);
    let passages = schedule(&table).unwrap();
    assert_eq!(problems(&table, &passages), Vec::<String>::new());
    for change in [
        |passage: &mut Passage| passage.entry += 1,
        |passage: &mut Passage| passage.ready -= 1,
        |passage: &mut Passage| passage.end += 1,
        |passage: &mut Passage| passage.clocks[0] = 1,
        |passage: &mut Passage| passage.variables[3] = 1,
    ] {
        let mut passages = passages.clone();
        change(&mut passages[0]);
        assert!(!problems(&table, &passages).is_empty());
    }
}
