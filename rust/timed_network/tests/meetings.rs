//! The safe call `meetings`: which windows met, lists of several lengths,
//! tables of which nothing is listed.

mod common;

use common::*;
use timed_network::{meetings, Verdict, FIELDS};

/// Probe's first send, and the hub's first receive, which starts with it.
const MET: [[u32; FIELDS]; 2] = [[0, 0, 0, 0, 3, 5, 0], [1, 0, 0, 0, 3, 6, 255]];

#[test]
fn the_listener_that_starts_with_the_sender_is_listed() {
    for more in [0, 1, 100] {
        let mut list = vec![9; 2 * FIELDS + more];
        let answer = meetings(&with(70, 3), &mut list);
        assert_eq!(answer.table, refused(16, 0));
        assert_eq!((answer.verdict, answer.size), (Verdict::Accepted, 2));
        assert_eq!(list[..2 * FIELDS], MET.concat());
        assert_eq!(list[2 * FIELDS..], vec![9; more]);
    }
}

#[test]
fn a_list_that_is_too_short_is_refused_and_the_table_is_judged_all_the_same() {
    for length in [0, 1, 7, 13] {
        let mut list = vec![9; length];
        let answer = meetings(&with(70, 3), &mut list);
        assert_eq!(answer.table, refused(16, 0));
        assert_eq!((answer.verdict, answer.size), (refused(13, 255), 0));
        assert_eq!(list, vec![9; length]);
    }
}

#[test]
fn of_an_accepted_table_and_of_one_that_cannot_be_read_nothing_is_listed() {
    for length in [0, 20] {
        let mut list = vec![9; length];
        let answer = meetings(&PROBE_AND_HUB, &mut list);
        assert_eq!(answer.table, Verdict::Accepted);
        assert_eq!((answer.verdict, answer.size), (Verdict::Accepted, 0));
        let answer = meetings(&PROBE_AND_HUB[..50], &mut list);
        assert_eq!(answer.table, refused(2, 255));
        assert_eq!((answer.verdict, answer.size), (Verdict::Accepted, 0));
        assert_eq!(list, vec![9; length]);
    }
}
