//! The safe calls `translate`, `program` and `part`: the worked example, lent
//! bytes of several lengths, refusals, damaged programs.

mod common;

use common::*;
use timed_network::{part, program, translate, Call, Verdict};

/// The length of the worked example's program, and where the second node's
/// part starts.
const LENGTH: usize = 246;
const HUB: usize = 100;

/// The blocks that document 01 prints: the probe's L0 and its e0.
const L0: [u8; 20] = [
    0x0A, 0, 0, 0, 0x0C, 0, 0, 5, 0x0B, 0, 0, 3, 0x0F, 0, 0, 0, 0x10, 0, 0, 0,
];
const E0: [u8; 20] = [
    0, 0, 0, 0, 4, 0, 0, 0, 7, 0, 0, 0, 9, 0, 0, 1, 0x11, 0, 0, 0,
];

/// The head of the probe's part: its length, locations, edges, initial
/// location, 0, the starts of its four blocks.
const PROBE_HEAD: [u8; 14] = [0, 94, 2, 2, 0, 0, 0, 0, 0, 5, 0, 10, 0, 15];

fn worked_example() -> Vec<u8> {
    program(&PROBE_AND_HUB).unwrap()
}

#[test]
fn the_worked_example_has_the_blocks_of_the_paper() {
    let program = worked_example();
    assert_eq!(program.len(), LENGTH);
    assert_eq!(program[..6], [1, 0, 246, 2, 0, 20]);
    let probe = part(&program, 0);
    assert_eq!(probe, &program[6..HUB]);
    assert_eq!(probe[..14], PROBE_HEAD);
    assert_eq!(probe[14..34], L0);
    assert_eq!(probe[14 + 4 * 10..14 + 4 * 15], E0);
    let hub = part(&program, 1);
    assert_eq!(hub, &program[HUB..]);
    assert_eq!(hub[..6], [0, 146, 3, 3, 0, 0]);
}

#[test]
fn bytes_that_are_many_enough_stay_past_the_result() {
    let expected = worked_example();
    for more in [0, 1, 4, 100] {
        let mut bytes = vec![77; LENGTH + more];
        let size = LENGTH;
        let verdict = Verdict::Accepted;
        assert_eq!(
            translate(&PROBE_AND_HUB, &mut bytes),
            Call { verdict, size }
        );
        assert_eq!(bytes[..LENGTH], expected);
        assert_eq!(bytes[LENGTH..], vec![77; more]);
    }
}

#[test]
fn too_few_bytes_are_refused_and_stay_as_they_were() {
    for length in [0, 1, 6, HUB, LENGTH - 4, LENGTH - 1] {
        let mut bytes = vec![77; length];
        let (verdict, size) = (refused(13, 255), 0);
        assert_eq!(
            translate(&PROBE_AND_HUB, &mut bytes),
            Call { verdict, size }
        );
        assert_eq!(bytes, vec![77; length]);
    }
}

#[test]
fn a_refused_table_leaves_the_bytes_as_they_were() {
    let hub_low_3 = with(70, 3);
    for length in [0, LENGTH, 2 * LENGTH] {
        let mut bytes = vec![77; length];
        let (verdict, size) = (refused(16, 0), 0);
        assert_eq!(translate(&hub_low_3, &mut bytes), Call { verdict, size });
        assert_eq!(bytes, vec![77; length]);
    }
    assert_eq!(program(&hub_low_3), Err(refusal(16, 0)));
    assert_eq!(program(&[]), Err(refusal(1, 255)));
}

#[test]
fn numbers_without_a_node_have_an_empty_part() {
    let program = worked_example();
    for node in 2..=255 {
        assert!(part(&program, node).is_empty());
    }
    assert!(part(&[], 0).is_empty());
}

#[test]
fn a_program_that_runs_out_has_the_parts_before() {
    let program = worked_example();
    for length in 0..LENGTH {
        let cut = &program[..length];
        let probe = if length >= HUB { 6..HUB } else { 0..0 };
        assert_eq!(part(cut, 0), &program[probe]);
        assert!(part(cut, 1).is_empty());
    }
}

/// A part is as long as it states, whatever stands in it.
#[test]
fn stated_lengths_are_taken_as_they_are() {
    let bytes = [9, 9, 9, 3, 9, 9, 0, 1, 0, 4, 0, 0];
    assert_eq!(part(&bytes, 0), [0]);
    // The second part is read from the first one's second byte on: 256 bytes.
    assert!(part(&bytes, 1).is_empty());
    let bytes = [9, 9, 9, 3, 9, 9, 0, 0, 0, 4];
    assert!(part(&bytes, 0).is_empty());
    assert!(part(&bytes, 2).is_empty());
    let bytes = [9, 9, 9, 3, 9, 9, 0, 2, 0, 3, 8, 0, 2];
    assert_eq!(part(&bytes, 0), [0, 2]);
    assert_eq!(part(&bytes, 1), [0, 3, 8]);
    assert_eq!(part(&bytes, 2), [0, 2]);
    assert!(part(&bytes, 3).is_empty());
}
