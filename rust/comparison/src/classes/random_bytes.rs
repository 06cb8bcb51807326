//! Random bytes of many lengths, the first ones more and more like those of a
//! table.

use super::Extent;
use crate::bytes::{set_two, state_length};
use crate::difference::Outcome;
use crate::random::Random;
use crate::tables::bands;
use crate::trial::Trial;
use reference::table::{Table, MAX_CHANNELS, MAX_COMPONENTS, MAX_TICKS, VERSIONS};

/// A length: mostly a short one, sometimes past 8,192.
fn length(random: &mut Random) -> usize {
    let most = random.pick(&[8, 30, 30, 100, 300, 8300]);
    random.within(0..=most)
}

/// Bytes of which some or all are small, as most bytes of a table are.
fn fill(random: &mut Random, length: usize) -> Vec<u8> {
    let small = random.below(4);
    let most = random.pick(&[1, 2, 4, 8]);
    let byte = |_| {
        if random.below(3) < small {
            random.within(0..=most) as u8
        } else {
            random.byte()
        }
    };
    (0..length).map(byte).collect()
}

/// A version that check 1 takes.
fn version(random: &mut Random) -> u8 {
    random.count(&VERSIONS)
}

/// Random bytes; in two of three cases the first is that of a version.
pub(super) fn anything(trial: &mut Trial, random: &mut Random, extent: &Extent) -> Outcome {
    for _ in 0..20 * extent.rounds {
        let length = length(random);
        let mut bytes = random.bytes(length);
        if length > 0 && !random.once_in(3) {
            bytes[0] = version(random);
        }
        trial.compare(&bytes)?;
    }
    Ok(())
}

/// First byte and length as they have to be, the rest random.
pub(super) fn length_stated(trial: &mut Trial, random: &mut Random, extent: &Extent) -> Outcome {
    for _ in 0..20 * extent.rounds {
        let length = length(random).max(3);
        let mut bytes = fill(random, length);
        bytes[0] = version(random);
        state_length(&mut bytes);
        trial.compare(&bytes)?;
    }
    Ok(())
}

/// A header in range, then random bytes.
pub(super) fn after_header(trial: &mut Trial, random: &mut Random, extent: &Extent) -> Outcome {
    for _ in 0..30 * extent.rounds {
        let length = length(random);
        let rest = fill(random, length);
        trial.compare(&with_header(random, &rest))?;
    }
    Ok(())
}

/// A header and the first 7 bytes of a component in range, its length that of
/// the rest or nearly, then random bytes.
pub(super) fn in_component(trial: &mut Trial, random: &mut Random, extent: &Extent) -> Outcome {
    for _ in 0..40 * extent.rounds {
        let length = length(random);
        let mut rest = component_head(random);
        rest.extend(fill(random, length));
        let length = rest.len() as u16;
        let stated = random.pick(&[length, length, length, length - 1, length + 1]);
        set_two(&mut rest, 0, stated);
        trial.compare(&with_header(random, &rest))?;
    }
    Ok(())
}

/// The length, to be put in, and five numbers in range; few locations and
/// edges, so that the reader may come to the end.
fn component_head(random: &mut Random) -> Vec<u8> {
    let locations = random.within(1..=3);
    let initial = random.below(locations);
    let clocks = random.within(1..=4);
    let variables = random.within(0..=4);
    let edges = random.within(1..=3);
    let numbers = [0, 0, locations, initial, clocks, variables, edges];
    numbers.iter().map(|number| *number as u8).collect()
}

/// These bytes behind a header in range, mostly one of a single component;
/// from version 2 on mostly with bands in range.
fn with_header(random: &mut Random, rest: &[u8]) -> Vec<u8> {
    let most = random.pick(&[1, 1, MAX_COMPONENTS]);
    let components = random.within(1..=most) as u8;
    let channels = random.count(&(0..=MAX_CHANNELS));
    let horizon = random.within(1..=MAX_TICKS.into()) as u16;
    let version = version(random);
    let mut bytes = vec![version, 0, 0, components, channels, 0, 0];
    set_two(&mut bytes, 5, horizon);
    if Table::has_bands(version) && !random.once_in(4) {
        bytes.extend(bands::of_each(random, channels));
    }
    bytes.extend(rest);
    state_length(&mut bytes);
    bytes
}
