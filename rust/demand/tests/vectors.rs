//! The stored runs, whose answers come from two other implementations, hold;
//! changed in one point they do not.

mod common;

use common::*;
use demand::{Demand, LATE, NOT_ALLOWED};
use reference::checks::verdict;

#[test]
fn all_runs_of_the_vectors_hold() {
    let (mut ends, mut messages, mut timeouts) = ([0; 4], 0, 0);
    for stored in stored() {
        let (table, passages) = verdict(&stored.table).unwrap();
        let demand = Demand::new(&table, &passages);
        let found = demand.hold(&stored.choices, &stored.answer.claim());
        let facts = found.unwrap_or_else(|problem| panic!("{}: {problem}", stored.name));
        let [end, _, tick, _] = stored.answer.numbers;
        let late = facts.late_at_work | facts.late_for_sleep;
        assert_eq!(end == u32::from(LATE), late != 0, "{}", stored.name);
        assert_eq!(facts.reached, tick - u32::from(late != 0));
        assert_eq!(end == u32::from(NOT_ALLOWED), facts.refusal.is_some());
        ends[end as usize] += 1;
        messages += facts.messages;
        timeouts += facts.timeouts;
    }
    println!("ends {ends:?}, {messages} messages, {timeouts} timeouts");
    assert!(ends.iter().all(|count| *count > 5), "{ends:?}");
    assert!(messages > 100 && timeouts > 20);
}

#[test]
fn no_other_answer_holds() {
    let mut count = 0;
    for stored in stored() {
        let (table, passages) = verdict(&stored.table).unwrap();
        let demand = Demand::new(&table, &passages);
        for other in changed(&stored.answer) {
            let found = demand.hold(&stored.choices, &other.claim());
            assert!(found.is_err(), "{}: {other:?}", stored.name);
            count += 1;
        }
    }
    println!("{count} wrong answers");
    assert!(count > 10_000);
}
