//! The safe calls `schedule` and `passages`: the worked example, lists of
//! several lengths, refusals.

mod common;

use common::*;
use timed_network::{passages, schedule, Call, Verdict, FIELDS, NO_MESSAGE};

/// The schedule that document 01 prints for the worked example.
const SCHEDULE: [[u32; FIELDS]; 8] = [
    [0, 0, 0, 0, 3, 5, 0],
    [1, 0, 0, 0, 2, 6, 0],
    [0, 1, 1, 5, 8, 10, NO_MESSAGE],
    [1, 1, 1, 6, 9, 10, NO_MESSAGE],
    [0, 0, 0, 10, 13, 15, 0],
    [1, 0, 0, 10, 12, 16, 0],
    [0, 1, 1, 15, 18, 20, NO_MESSAGE],
    [1, 1, 1, 16, 19, 20, NO_MESSAGE],
];

const NEEDED: usize = SCHEDULE.len() * FIELDS;

fn call(verdict: Verdict, size: usize) -> Call {
    Call { verdict, size }
}

#[test]
fn the_worked_example_has_its_schedule() {
    assert_eq!(passages(&PROBE_AND_HUB), Ok(SCHEDULE.to_vec()));
}

#[test]
fn a_list_that_is_long_enough_keeps_what_is_past_the_result() {
    for more in [0, 1, 7, 100] {
        let mut list = vec![4_000_000_000; NEEDED + more];
        let answer = schedule(&PROBE_AND_HUB, &mut list);
        assert_eq!(answer, call(Verdict::Accepted, SCHEDULE.len()));
        assert_eq!(list[..NEEDED], SCHEDULE.concat());
        assert_eq!(list[NEEDED..], vec![4_000_000_000; more]);
    }
}

#[test]
fn a_list_that_is_too_short_is_refused_and_stays_as_it_was() {
    for length in [0, 1, 7, NEEDED - 7, NEEDED - 1] {
        let mut list = vec![4_000_000_000; length];
        let answer = schedule(&PROBE_AND_HUB, &mut list);
        assert_eq!(answer, call(refused(13, 255), 0));
        assert_eq!(list, vec![4_000_000_000; length]);
    }
}

#[test]
fn a_refused_table_leaves_the_list_as_it_was() {
    let hub_low_3 = with(70, 3);
    for length in [0, NEEDED, 2 * NEEDED] {
        let mut list = vec![5; length];
        assert_eq!(schedule(&hub_low_3, &mut list), call(refused(16, 0), 0));
        assert_eq!(list, vec![5; length]);
    }
    assert_eq!(passages(&hub_low_3), Err(refusal(16, 0)));
}
