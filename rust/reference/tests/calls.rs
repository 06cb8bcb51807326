//! The exported calls: checks 13 and 14, and every lent byte afterwards.

mod common;

use common::*;
use reference::calls::*;
use reference::program::program;
use reference::run::{End, FINISH_TICK, OBSERVATION, TICK};
use reference::table::*;

/// Passages and program length of the worked example.
const PASSAGES: usize = 8;
const PROGRAM: usize = 246;

#[test]
fn the_schedule_into_a_lent_list() {
    let mut list = [77; PASSAGES * FIELDS + 3];
    assert_eq!(schedule(&probe_and_hub(), &mut list), Ok(PASSAGES));
    assert_eq!(list[..7], [0, 0, 0, 0, 3, 5, 0]);
    assert_eq!(list[14..21], [0, 1, 1, 5, 8, 10, NO_MESSAGE]);
    assert_eq!(list[49..56], [1, 1, 1, 16, 19, 20, NO_MESSAGE]);
    assert_eq!(list[56..], [77; 3]);
}

#[test]
fn the_program_into_lent_bytes() {
    let mut bytes = [77; PROGRAM + 5];
    assert_eq!(translate(&probe_and_hub(), &mut bytes), Ok(PROGRAM));
    assert_eq!(bytes[..PROGRAM], program(&probe_and_hub_table()));
    assert_eq!(bytes[PROGRAM..], [77; 5]);
    assert_eq!(part(&bytes[..PROGRAM], 1), &bytes[100..PROGRAM]);
    assert!(part(&bytes, 2).is_empty());
}

#[test]
fn a_run_writes_its_observations_alone() {
    let choices = [1, 1, 1, 1, 1, TICK, TICK, 1];
    let mut bytes = [77; PASSAGES * OBSERVATION];
    let (outcome, count) = run(&probe_and_hub(), &choices, &mut bytes).unwrap();
    assert_eq!(
        (outcome.end, outcome.tick, outcome.used),
        (End::UsedUp, 2, 8)
    );
    assert_eq!(count, 1);
    assert_eq!(bytes[..8], [1, 0, 0, 0, 0, 0, 0, 2]);
    assert_eq!(bytes[OBSERVATION..], [77; 7 * OBSERVATION]);
}

#[test]
fn check_13_a_buffer_too_small() {
    let table = probe_and_hub();
    let thirteen = refused(13, 255);
    let mut list = [77; PASSAGES * FIELDS];
    for length in [0, 7, PASSAGES * FIELDS - 1] {
        assert_eq!(schedule(&table, &mut list[..length]), Err(thirteen));
    }
    assert_eq!(list, [77; PASSAGES * FIELDS]);
    assert_eq!(schedule(&table, &mut list), Ok(PASSAGES));
    let mut bytes = [77; PASSAGES * OBSERVATION];
    for length in [0, 6, PROGRAM - 1] {
        assert_eq!(translate(&table, &mut bytes[..length]), Err(thirteen));
    }
    for length in [
        0,
        OBSERVATION,
        PASSAGES * FINISH_TICK,
        PASSAGES * OBSERVATION - 1,
    ] {
        assert_eq!(run(&table, &[], &mut bytes[..length]), Err(thirteen));
    }
    assert_eq!(bytes, [77; PASSAGES * OBSERVATION]);
    assert_eq!(translate(&table, &mut bytes[..PROGRAM]), Ok(PROGRAM));
    assert!(run(&table, &[], &mut bytes).is_ok());
}

#[test]
fn check_14_too_many_choices() {
    let table = probe_and_hub();
    let mut bytes = [77; PASSAGES * OBSERVATION];
    let many = vec![TICK; MAX_CHOICES + 1];
    assert_eq!(run(&table, &many, &mut bytes), Err(refused(14, 255)));
    assert_eq!(bytes, [77; PASSAGES * OBSERVATION]);
    let (outcome, count) = run(&table, &many[1..], &mut bytes).unwrap();
    assert_eq!((outcome.end, outcome.node, count), (End::Late, 1, 0));
}

#[test]
fn the_order_of_the_checks() {
    let many = vec![TICK; MAX_CHOICES + 1];
    assert_eq!(
        run(
            &probe_and_hub(),
            &many,
            &mut [0; PASSAGES * OBSERVATION - 1]
        ),
        Err(refused(13, 255))
    );
    let mut table = probe_and_hub_table();
    table.components[1].locations[0].bound = 5;
    let bytes = write_table(&table);
    assert_eq!(check(&bytes), Err(refused(17, 0)));
    assert_eq!(run(&bytes, &many, &mut []), Err(refused(17, 0)));
    assert_eq!(translate(&bytes, &mut []), Err(refused(17, 0)));
    assert_eq!(schedule(&bytes, &mut []), Err(refused(17, 0)));
    assert_eq!(run(&[], &many, &mut []), Err(refused(1, 255)));
}

/// A refusal of 1 to 12 leaves large buffers as they were, too.
#[test]
fn refusals_leave_lent_bytes() {
    let mut count = 0;
    for vector in vectors().iter().filter(|v| v.request[0] == "check") {
        let Some(refusal) = refusal_of(&vector.answer) else {
            continue;
        };
        let table = unhex(&vector.request[1]);
        let (mut list, mut bytes) = (vec![77; 7 * 1024], vec![77; AMPLE]);
        assert_eq!(check(&table), Err(refusal));
        assert_eq!(schedule(&table, &mut list), Err(refusal));
        assert_eq!(translate(&table, &mut bytes), Err(refusal));
        assert_eq!(run(&table, &[TICK], &mut bytes), Err(refusal));
        assert!(list.iter().all(|number| *number == 77));
        assert!(bytes.iter().all(|byte| *byte == 77));
        count += 1;
    }
    assert!(count > 100);
}
