//! The calls on the smallest table, and the layout of their answers.

use super::*;
use crate::OBSERVATION;

/// Header, one component of one location and one internal edge whose
/// window is 0 to 1.
const SMALLEST: [u8; 24] = [
    1, 0, 24, 1, 0, 0, 1, // header
    0, 17, 1, 0, 1, 0, 1, // component
    0, 0, 1, // location
    0, 0, 0, 0, 0, 0, 0, // edge
];

/// As a C compiler lays the header's structs out on x86-64.
#[test]
fn the_answers_have_the_sizes_of_the_header() {
    use std::mem::{offset_of, size_of};
    assert_eq!(size_of::<VerdictNumbers>(), 2);
    assert_eq!(size_of::<CallNumbers>(), 8);
    assert_eq!(size_of::<PartNumbers>(), 16);
    assert_eq!(size_of::<RunNumbers>(), 16);
    assert_eq!(size_of::<Entry>(), 28);
    assert_eq!(size_of::<EdgeChoiceNumbers>(), 16);
    assert_eq!(offset_of!(Entry, clocks), 4);
    assert_eq!(offset_of!(Entry, values), 20);
    assert_eq!(offset_of!(EdgeChoiceNumbers, edge), 3);
    assert_eq!(offset_of!(EdgeChoiceNumbers, looked), 12);
    assert_eq!(offset_of!(CallNumbers, size), 4);
    assert_eq!(offset_of!(PartNumbers, length), 8);
    assert_eq!(offset_of!(RunNumbers, tick), 4);
    assert_eq!(offset_of!(RunNumbers, size), 12);
}

#[test]
fn an_accepted_table_gives_0_and_255() {
    let (number, component) = (0, 255);
    assert_eq!(check(&SMALLEST), VerdictNumbers { number, component });
    let mut list = [9; 8];
    let answer = CallNumbers {
        number,
        component,
        size: 1,
    };
    assert_eq!(schedule(&SMALLEST, &mut list), answer);
    assert_eq!(list, [0, 0, 0, 0, 0, 1, 255, 9]);
}

#[test]
fn a_passage_has_16_bytes() {
    assert_eq!(size_of::<Passage>(), 16);
    let mut list = [Passage::default(); 2];
    let size = 1;
    let answer = CallNumbers {
        number: 0,
        component: 255,
        size,
    };
    assert_eq!(passages(&SMALLEST, &mut list), answer);
    let only = Passage {
        message: 255,
        end: 1,
        ..Passage::default()
    };
    assert_eq!(list, [only, Passage::default()]);
}

#[test]
fn a_refused_call_gives_size_0() {
    let mut list = [9; 6];
    let answer = CallNumbers {
        number: 13,
        component: 255,
        size: 0,
    };
    assert_eq!(schedule(&SMALLEST, &mut list), answer);
    assert_eq!(list, [9; 6]);
}

/// The program of the smallest table, 52 bytes.
const PROGRAM: [u8; 52] = [
    1, 0, 52, 1, 0, 1, // header
    0, 46, 1, 1, 0, 0, // the node's head
    0, 0, 0, 4, // the starts of its two blocks
    10, 0, 0, 0, 12, 0, 0, 1, 15, 0, 0, 0, 16, 0, 0, 0, // trial, high, keep, take
    0, 0, 0, 0, 3, 0, 0, 0, 7, 0, 0, 0, // sleep, done, age
    9, 0, 0, 0, 17, 0, 0, 0, // enter, choose
];

#[test]
fn the_program_and_its_only_part() {
    let mut program = [9; 53];
    let answer = CallNumbers {
        number: 0,
        component: 255,
        size: 52,
    };
    assert_eq!(translate(&SMALLEST, &mut program), answer);
    assert_eq!(program[..52], PROGRAM);
    assert_eq!(program[52], 9);
    let (start, length) = (6, 46);
    assert_eq!(part(&PROGRAM, 0), PartNumbers { start, length });
    let (start, length) = (0, 0);
    for node in [1, 8, 255] {
        assert_eq!(part(&PROGRAM, node), PartNumbers { start, length });
    }
    assert_eq!(part(&PROGRAM[..51], 0), PartNumbers { start, length });
}

#[test]
fn a_run_to_the_horizon() {
    let mut bytes = [9; OBSERVATION + 1];
    let answer = RunNumbers {
        number: 0,
        component: 255,
        end: 0,
        node: 255,
        tick: 1,
        used: 6,
        size: 1,
    };
    assert_eq!(run(&SMALLEST, &[0, 0, 0, 0, 0, 255, 7], &mut bytes), answer);
    assert_eq!(bytes[..32], [0; 32]);
    assert_eq!(bytes[32..], [255, 255, 255, 255, 9]);
}

#[test]
fn a_refused_run_gives_node_255_and_zeros() {
    let mut bytes = [9; OBSERVATION - 1];
    let answer = RunNumbers {
        number: 13,
        component: 255,
        end: 0,
        node: 255,
        tick: 0,
        used: 0,
        size: 0,
    };
    assert_eq!(run(&SMALLEST, &[0], &mut bytes), answer);
    assert_eq!(bytes, [9; OBSERVATION - 1]);
}
