//! Parts of damaged programs: what a part is asked of may be any bytes.

use super::planned::{drawn, hub_and_probes, with_workers};
use super::Extent;
use crate::difference::Outcome;
use crate::random::Random;
use crate::tables::planned::{Size, Style};
use crate::tables::WORKED_EXAMPLE;
use crate::trial::Trial;
use reference::program::program;
use reference::table::read_table;

/// The programs of the worked example and of some generated tables.
fn a_few(random: &mut Random) -> Vec<Vec<u8>> {
    let example = read_table(&WORKED_EXAMPLE).expect("the worked example is accepted");
    let size = Size::small(random);
    let tables = [
        example,
        hub_and_probes(random, 3),
        drawn(random, &size, &Style::PLAIN),
        with_workers(random),
    ];
    tables.iter().map(program).collect()
}

/// Each length of a few programs. What is cut off still stands behind the
/// bytes handed in.
pub(super) fn cut(trial: &mut Trial, random: &mut Random, extent: &Extent) -> Outcome {
    for program in a_few(random) {
        for length in (0..=program.len()).step_by(extent.step) {
            trial.parts(&program[..length])?;
        }
    }
    Ok(())
}

/// Each byte of a few programs takes other values: all of them in the first
/// bytes and in the lengths, some elsewhere.
pub(super) fn one_byte(trial: &mut Trial, random: &mut Random, extent: &Extent) -> Outcome {
    for mut program in a_few(random) {
        let lengths = places_of_lengths(&program);
        for place in (0..program.len()).step_by(extent.step) {
            let own = program[place];
            let all = place < 6 || lengths.contains(&place);
            let some = [0, 1, 2, 128, 255, own.wrapping_add(1), own.wrapping_sub(1)];
            let values = if all {
                (0..=255).collect()
            } else {
                some.to_vec()
            };
            for value in values {
                program[place] = value;
                trial.parts(&program)?;
            }
            program[place] = own;
        }
    }
    Ok(())
}

/// The places of the bytes that state the lengths of parts.
fn places_of_lengths(program: &[u8]) -> Vec<usize> {
    let mut places = Vec::new();
    let mut at = 6;
    while at + 1 < program.len() {
        places.extend([at, at + 1]);
        at += usize::from(u16::from_be_bytes([program[at], program[at + 1]])).max(2);
    }
    places
}

/// Any bytes, many of them small, so that lengths stay inside.
pub(super) fn anything(trial: &mut Trial, random: &mut Random, extent: &Extent) -> Outcome {
    for _ in 0..20 * extent.rounds {
        let length = random.within(0..=40);
        let mut bytes = random.bytes(length);
        for byte in &mut bytes {
            if !random.once_in(8) {
                *byte %= 9;
            }
            if random.once_in(2) {
                *byte = 0;
            }
        }
        trial.parts(&bytes)?;
    }
    Ok(())
}
