//! The safe call `schedule_into`: the worked example, lists of several
//! lengths, refusals.

mod common;

use common::*;
use timed_network::{passages, schedule_into, Call, Passage, Verdict, FIELDS};

/// What a list holds before a call.
const BEFORE: Passage = Passage {
    component: 9,
    edge: 8,
    location: 7,
    message: 6,
    entry: 4_000_000_000,
    ready: 3,
    end: 2,
};

/// A passage's seven numbers.
fn fields(passage: &Passage) -> [u32; FIELDS] {
    [
        passage.component.into(),
        passage.edge.into(),
        passage.location.into(),
        passage.entry,
        passage.ready,
        passage.end,
        passage.message.into(),
    ]
}

#[test]
fn the_passages_of_the_worked_example_are_its_schedule() {
    let rows = passages(&PROBE_AND_HUB).unwrap();
    for more in [0, 1, 100] {
        let mut list = vec![BEFORE; rows.len() + more];
        let (verdict, size) = (Verdict::Accepted, rows.len());
        assert_eq!(
            schedule_into(&PROBE_AND_HUB, &mut list),
            Call { verdict, size }
        );
        assert!(list[..size].iter().map(fields).eq(rows.iter().copied()));
        assert_eq!(list[size..], vec![BEFORE; more]);
    }
}

#[test]
fn a_list_that_is_too_short_is_refused_and_stays_as_it_was() {
    for length in [0, 1, 7] {
        let mut list = vec![BEFORE; length];
        let (verdict, size) = (refused(13, 255), 0);
        assert_eq!(
            schedule_into(&PROBE_AND_HUB, &mut list),
            Call { verdict, size }
        );
        assert_eq!(list, vec![BEFORE; length]);
    }
}

#[test]
fn a_refused_table_leaves_the_list_as_it_was() {
    for length in [0, 8, 20] {
        let mut list = vec![BEFORE; length];
        let (verdict, size) = (refused(16, 0), 0);
        assert_eq!(
            schedule_into(&with(70, 3), &mut list),
            Call { verdict, size }
        );
        assert_eq!(list, vec![BEFORE; length]);
    }
}
