//! The safe call `run`: the worked example with each of the four ends, lent
//! bytes of several lengths, refusals.

mod common;

use common::*;
use timed_network::{run, run_numbers, End, Observation, Run};
use timed_network::{MAX_CHOICES, NO_NODE, NO_WORK, OBSERVATION, TICK};

/// The bytes that a run of the worked example asks for: 8 passages.
const NEEDED: usize = 8 * OBSERVATION;

/// The observations of the hub's first sleep, at tick 2, and of the probe's,
/// at tick 3.
const HUB_AT_2: [u8; OBSERVATION] = observation(1, 2);
const PROBE_AT_3: [u8; OBSERVATION] = observation(0, 3);

/// Edge 0 at location 0, the only clock as old as the run, no work before it.
const fn observation(node: u8, tick: u8) -> [u8; OBSERVATION] {
    let mut bytes = [0; OBSERVATION];
    (bytes[0], bytes[7], bytes[11]) = (node, tick, tick);
    [bytes[32], bytes[33], bytes[34], bytes[35]] = [255; 4];
    bytes
}

/// Both nodes look for their edge; the hub wakes at 2, the probe at 3.
const AWAKE: [u8; 15] = [0, 0, 0, 0, 0, 1, 1, 1, 1, 1, TICK, TICK, 1, TICK, 0];

fn ran(end: End, tick: u32, used: u64, size: usize) -> Run {
    let node = NO_NODE;
    Run {
        end,
        node,
        tick,
        used,
        size,
    }
}

/// Runs the worked example with just enough bytes; what is past the
/// observations must stay.
fn example(choices: &[u8]) -> (Run, Vec<u8>) {
    let mut bytes = vec![77; NEEDED];
    let run = run(&PROBE_AND_HUB, choices, &mut bytes).unwrap();
    let rest = bytes.split_off(run.size * OBSERVATION);
    assert_eq!(rest, vec![77; rest.len()]);
    (run, bytes)
}

#[test]
fn no_choices_are_used_up_at_once() {
    let expected = ran(End::UsedUp, 0, 0, 0);
    assert_eq!(example(&[]), (expected, Vec::new()));
}

#[test]
fn a_message_finishes_both_statements() {
    let mut choices = AWAKE.to_vec();
    choices.extend([0, 1, 1, 1]);
    let expected = ran(End::UsedUp, 3, 19, 2);
    assert_eq!(
        example(&choices),
        (expected, [HUB_AT_2, PROBE_AT_3].concat())
    );
}

/// The probe sends at 4 and works again from 8 on; the hub takes the message at 4 and
/// works again from 9 on.
#[test]
fn observations_are_read_from_their_bytes() {
    let mut choices = AWAKE.to_vec();
    choices.extend([TICK, 0]);
    choices.extend([0, 0, 0, 0, 0, 0, 0, 0, 1, 1, 1, 1, 1, 1, 1, 1]);
    choices.extend([TICK, TICK, TICK, TICK, 0, TICK, 1]);
    let (run, bytes) = example(&choices);
    assert_eq!(run, ran(End::UsedUp, 9, choices.len() as u64, 4));
    let shown: Vec<Observation> = run.observations(&bytes).collect();
    let one = |component, edge, tick, previous_finish| Observation {
        component,
        edge,
        location: edge,
        tick,
        clocks: [tick, 0, 0, 0],
        values: [0; 4],
        previous_finish,
    };
    let expected = [
        one(1, 0, 2, None),
        one(0, 0, 3, None),
        one(0, 1, 8, Some(4)),
        one(1, 1, 9, Some(4)),
    ];
    assert_eq!(shown, expected);
    assert_eq!(run.observations(&bytes[..OBSERVATION]).count(), 1);
}

#[test]
fn an_observation_has_each_of_its_numbers() {
    let mut bytes = [0; OBSERVATION];
    for (place, byte) in bytes.iter_mut().enumerate() {
        *byte = place as u8 + 1;
    }
    bytes[24] = 0x80;
    let expected = Observation {
        component: 1,
        edge: 2,
        location: 3,
        tick: 0x0506_0708,
        clocks: [0x090a_0b0c, 0x0d0e_0f10, 0x1112_1314, 0x1516_1718],
        values: [-0x7fe6, 0x1b1c, 0x1d1e, 0x1f20],
        previous_finish: Some(0x2122_2324),
    };
    assert_eq!(Observation::from(&bytes), expected);
    bytes[32..].copy_from_slice(&NO_WORK.to_be_bytes());
    assert_eq!(Observation::from(&bytes).previous_finish, None);
}

#[test]
fn choices_that_are_not_allowed_do_nothing() {
    let nothing = (ran(End::NotAllowed, 0, 0, 0), Vec::new());
    for choice in [2, 7, 8, 254] {
        assert_eq!(example(&[choice, 0, 0]), nothing);
    }
    // The hub's sleep is due at tick 2.
    let (found, _) = example(&[1, 1, 1, 1, 1, TICK, TICK, TICK]);
    assert_eq!(found, ran(End::NotAllowed, 2, 7, 0));
    // Its listen ends at tick 6 or with a message.
    let (found, bytes) = example(&[1, 1, 1, 1, 1, TICK, TICK, 1, 1]);
    assert_eq!(found, ran(End::NotAllowed, 2, 8, 1));
    assert_eq!(bytes, HUB_AT_2);
}

#[test]
fn a_late_tick_is_counted_and_names_the_lowest_node() {
    // The hub should sleep at 2, so tick 3 is late; the probe has until 4.
    let late = Run {
        node: 1,
        ..ran(End::Late, 3, 3, 0)
    };
    assert_eq!(example(&[TICK; 5]), (late, Vec::new()));
    // The probe should have sent by 5.
    let mut choices = AWAKE.to_vec();
    choices.extend([TICK; 9]);
    let late = Run {
        node: 0,
        ..ran(End::Late, 6, 18, 2)
    };
    assert_eq!(example(&choices), (late, [HUB_AT_2, PROBE_AT_3].concat()));
}

/// One component that works from tick 0 to 3.
const ONE: [u8; 24] = [
    1, 0, 24, 1, 0, 0, 3, 0, 17, 1, 0, 1, 0, 1, 0, 0, 3, 0, 0, 0, 0, 0, 0, 0,
];

#[test]
fn choices_behind_the_horizon_are_ignored() {
    let mut bytes = [77; OBSERVATION + 1];
    let choices = [0, 0, 0, 0, 0, TICK, TICK, TICK, 9, 0, TICK];
    let found = run(&ONE, &choices, &mut bytes);
    assert_eq!(found, Ok(ran(End::Horizon, 3, 8, 1)));
    assert_eq!(bytes[..OBSERVATION], observation(0, 0));
    assert_eq!(bytes[OBSERVATION], 77);
}

#[test]
fn refusals_write_nothing_and_have_an_order() {
    let many = vec![TICK; MAX_CHOICES + 1];
    let hub_low_3 = with(70, 3);
    let all = [
        (&PROBE_AND_HUB[..], &many[..0], 0, (13, 255)),
        (&PROBE_AND_HUB, &many[..9], NEEDED - 1, (13, 255)),
        (&PROBE_AND_HUB, &many, NEEDED - 1, (13, 255)),
        (&PROBE_AND_HUB, &many, NEEDED, (14, 255)),
        (&hub_low_3, &many, NEEDED, (16, 0)),
        (&[], &many, 0, (1, 255)),
    ];
    for (table, choices, length, (number, component)) in all {
        let mut bytes = vec![77; length];
        let found = run(table, choices, &mut bytes);
        assert_eq!(found, Err(refusal(number, component)));
        let numbers = run_numbers(table, choices, &mut bytes);
        assert_eq!((numbers.number, numbers.component), (number, component));
        assert_eq!((numbers.end, numbers.node), (0, 255));
        assert_eq!((numbers.tick, numbers.used, numbers.size), (0, 0, 0));
        assert_eq!(bytes, vec![77; length]);
    }
    let mut bytes = [77; NEEDED];
    let late = run(&PROBE_AND_HUB, &many[1..], &mut bytes).unwrap();
    assert_eq!((late.end, late.node, late.used), (End::Late, 1, 3));
}
