//! Nodes that wake apart: the stored runs hold, changed in one point they do not;
//! without offsets nothing is different; a node is chosen before it wakes or
//! refused after that.

mod common;

use common::*;
use demand::walk::Refusal;
use demand::{Claim, Demand, NOT_ALLOWED, USED_UP};
use reference::checks::verdict;

/// Accepted at a spread is accepted at 0, with the same schedule.
#[test]
fn all_runs_of_the_vectors_hold() {
    let (mut ends, mut messages, mut filled) = ([0; 4], 0, 0);
    for stored in stored_apart() {
        let (table, passages) = verdict(&stored.table).unwrap();
        let demand = Demand::new(&table, &passages);
        let claim = stored.answer.claim();
        let found = demand.hold_apart(&stored.choices, &stored.offsets, &claim);
        let found = found.unwrap_or_else(|problem| panic!("{}: {problem}", stored.name));
        ends[usize::from(claim.end)] += 1;
        messages += found.facts.messages;
        filled += found.filled.len();
    }
    println!("ends {ends:?}, {messages} messages, {filled} filled in");
    assert!(ends.iter().all(|count| *count > 3), "{ends:?}");
    assert!(messages > 20, "{messages}");
}

#[test]
fn no_other_answer_holds() {
    let mut count = 0;
    for stored in stored_apart() {
        let (table, passages) = verdict(&stored.table).unwrap();
        let demand = Demand::new(&table, &passages);
        for other in changed(&stored.answer) {
            let found = demand.hold_apart(&stored.choices, &stored.offsets, &other.claim());
            assert!(found.is_err(), "{}: {other:?}", stored.name);
            count += 1;
        }
    }
    println!("{count} wrong answers");
    assert!(count > 1000);
}

#[test]
fn without_offsets_it_is_the_demand_on_nodes_that_wake_together() {
    for stored in stored() {
        let (table, passages) = verdict(&stored.table).unwrap();
        let demand = Demand::new(&table, &passages);
        let claim = stored.answer.claim();
        let together = demand.hold(&stored.choices, &claim).unwrap();
        let apart = demand.hold_apart(&stored.choices, &[], &claim).unwrap();
        assert_eq!(apart.facts, together, "{}", stored.name);
        assert_eq!(apart.filled, [], "{}", stored.name);
    }
}

/// A run without observations, ended by a choice that is not allowed or by no
/// more choices.
fn claim(end: u8, tick: u32, used: u32) -> Claim<'static> {
    Claim {
        end,
        node: 255,
        tick,
        used,
        observations: &[],
    }
}

#[test]
fn before_it_wakes_and_after() {
    // Both nodes wake at tick 2.
    let stored = stored_apart();
    let one = stored.iter().find(|s| s.name == "chosen before it wakes");
    let (table, passages) = verdict(&one.unwrap().table).unwrap();
    let demand = Demand::new(&table, &passages);
    let hold = |choices: &[u8], claim: Claim| demand.hold_apart(choices, &[2, 2], &claim);
    for tick in [0, 1] {
        let choices = [&vec![255; tick][..], &[0]].concat();
        let tick = tick as u32;
        let found = hold(&choices, claim(NOT_ALLOWED, tick, tick)).unwrap();
        assert_eq!(found.facts.refusal, Some(Refusal::Asleep));
        let problem = hold(&choices, claim(USED_UP, tick, tick + 1)).unwrap_err();
        assert!(problem.starts_with("woken: "), "{problem}");
    }
    let choices = [255, 255, 0];
    assert!(hold(&choices, claim(USED_UP, 2, 3)).is_ok());
    let problem = hold(&choices, claim(NOT_ALLOWED, 2, 2)).unwrap_err();
    assert!(problem.starts_with("refused: "), "{problem}");
}
