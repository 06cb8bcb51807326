//! Lent memory: what is too short is refused and kept, what stands past the
//! result is kept.

mod common;

use common::bytes;
use yardstick::{
    part, End, Refusal, Told, Yardstick, FIELDS, MAX_CHOICES, NONE, OBSERVATION, REASON,
};

/// The passages of the worked example, and the bytes of its program.
const PASSAGES: usize = 8;
const PROGRAM: usize = 246;

fn example() -> Vec<u8> {
    bytes("corpus/probe_and_hub.bin")
}

const fn refused(number: u8) -> Refusal {
    let component = NONE;
    Refusal { number, component }
}

#[test]
fn lists_of_all_lengths() {
    let mut yardstick = Yardstick::new();
    for length in 0..FIELDS * PASSAGES + 9 {
        let mut list = vec![7_777_777; length];
        let answer = yardstick.schedule(&example(), &mut list);
        let needed = FIELDS * PASSAGES;
        let written = if length >= needed { needed } else { 0 };
        let expected = if written > 0 {
            Ok(PASSAGES)
        } else {
            Err(refused(13))
        };
        assert_eq!(answer, expected);
        let kept = |number: &u32| *number == 7_777_777;
        assert!(list[written..].iter().all(kept), "{length}");
        assert!(!list[..written].iter().any(kept), "{length}");
    }
}

#[test]
fn programs_of_all_lengths() {
    let mut yardstick = Yardstick::new();
    for length in 0..PROGRAM + 9 {
        let mut program = vec![0xee; length];
        let answer = yardstick.translate(&example(), &mut program);
        let written = if length >= PROGRAM { PROGRAM } else { 0 };
        let expected = if written > 0 {
            Ok(PROGRAM)
        } else {
            Err(refused(13))
        };
        assert_eq!(answer, expected);
        assert!(program[written..].iter().all(|byte| *byte == 0xee));
    }
}

#[test]
fn runs_of_all_lengths() {
    let mut yardstick = Yardstick::new();
    let needed = OBSERVATION * PASSAGES;
    for length in 0..needed + 9 {
        let mut observations = vec![0xee; length];
        // The probe and the hub reach their first sleeps, two ticks pass, the
        // hub sleeps no more.
        let choices = [0, 0, 0, 0, 0, 1, 1, 1, 1, 1, 255, 255, 1];
        let answer = yardstick.run(&example(), &choices, &mut observations);
        if length < needed {
            assert_eq!(answer, Err(refused(13)));
            assert!(observations.iter().all(|byte| *byte == 0xee));
            continue;
        }
        let run = answer.unwrap();
        assert_eq!((run.end, run.tick, run.used), (End::UsedUp, 2, 13));
        assert_eq!((run.node, run.size), (NONE, 1));
        assert_eq!(observations[..8], [1, 0, 0, 0, 0, 0, 0, 2]);
        assert_eq!(observations[OBSERVATION - 4..OBSERVATION], [0xff; 4]);
        let behind = &observations[OBSERVATION..];
        assert!(behind.iter().all(|byte| *byte == 0xee));
    }
}

#[test]
fn reasons_of_all_lengths() {
    let mut yardstick = Yardstick::new();
    for length in 0..12 {
        let mut told = vec![0xee; length];
        let answer = yardstick.reasons(&example(), 1, 6, &mut told);
        let (passage, size) = (3, 1);
        let written = if length >= REASON { REASON } else { 0 };
        let expected = match written {
            0 => Err(refused(13)),
            _ => Ok(Told { passage, size }),
        };
        assert_eq!(answer, expected);
        assert_eq!(told[..written], [1, 0, NONE][..written]);
        assert!(told[written..].iter().all(|byte| *byte == 0xee));
        let late = yardstick.reasons(&example(), 1, 20, &mut told);
        assert_eq!(late, Err(refused(21)));
    }
}

#[test]
fn too_many_choices() {
    let mut yardstick = Yardstick::new();
    let choices = vec![255; MAX_CHOICES + 1];
    let mut observations = vec![0; OBSERVATION * PASSAGES];
    let (many, most) = (&choices, &choices[1..]);
    let answer = yardstick.run(&example(), many, &mut observations);
    assert_eq!(answer, Err(refused(14)));
    let answer = yardstick.run(&example(), many, &mut observations[1..]);
    assert_eq!(answer, Err(refused(13)));
    let run = yardstick.run(&example(), most, &mut observations).unwrap();
    assert_eq!((run.end, run.node), (End::Late, 1));
    assert_eq!((run.tick, run.used), (3, 3));
}

#[test]
fn parts_of_any_bytes() {
    assert_eq!(part(&[], 0), 0..0);
    let short = [1, 0, 8, 1, 0, 20, 0, 1];
    assert_eq!(part(&short, 0), 6..7);
    assert_eq!(part(&short[..7], 0), 0..0);
    let two = [9, 9, 9, 2, 9, 9, 0, 0, 0, 2];
    assert_eq!(part(&two, 0), 6..6);
    assert_eq!(part(&two, 1), 6..6);
    assert_eq!(part(&two, 2), 0..0);
}
