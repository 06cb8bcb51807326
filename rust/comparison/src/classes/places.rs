//! Tables that checks 4 to 6 refuse: at places that are known, and at any.

use super::bases::{self, Base};
use super::Extent;
use crate::bytes::{set, set_two, state_length};
use crate::difference::{Outcome, Stop};
use crate::layout::Layout;
use crate::random::Random;
use crate::stored;
use crate::trial::Trial;
use reference::table::*;

/// Each component of a few tables states each length, up to two bytes more than there
/// are. It ends in the midst of each part, where bytes are left over, or too late.
pub(super) fn lengths(trial: &mut Trial, random: &mut Random, extent: &Extent) -> Outcome {
    for base in bases::a_few(random) {
        for component in Layout::of(&base.table).components {
            let there = base.bytes.len() - component.start;
            let mut bytes = base.bytes.clone();
            for length in (0..=there + 2).step_by(extent.step) {
                set_two(&mut bytes, component.start, length as u16);
                trial.compare(&bytes)?;
            }
        }
    }
    Ok(())
}

/// The worked example and the one with bands, each cut behind each byte of its
/// components, or with bytes behind them; the table states the length that it has, and
/// a component more or less than there are. The components state what they did. Then
/// generated tables with bytes behind them.
pub(super) fn ends(trial: &mut Trial, random: &mut Random, extent: &Extent) -> Outcome {
    for base in [bases::worked_example(), bases::worked_example_on_bands()] {
        let first = 7 + base.table.bands.len();
        for length in (first..base.bytes.len() + 40).step_by(extent.step.min(7)) {
            let mut bytes = base.bytes.clone();
            bytes.resize_with(length, || random.byte());
            state_length(&mut bytes);
            for components in 1..=3 {
                bytes[3] = components;
                trial.compare(&bytes)?;
            }
        }
    }
    for _ in 0..extent.rounds {
        bytes_behind(trial, random)?;
    }
    Ok(())
}

/// Generated tables with one byte or a few behind the last component.
fn bytes_behind(trial: &mut Trial, random: &mut Random) -> Outcome {
    let Base { mut bytes, .. } = bases::any(random);
    for more in [1, random.within(2..=60)] {
        let length = (bytes.len() + more).min(*LENGTHS.end());
        bytes.resize_with(length, || random.byte());
        state_length(&mut bytes);
        trial.compare(&bytes)?;
    }
    Ok(())
}

/// Numbers of generated tables that are one more than the greatest allowed.
pub(super) fn limits(trial: &mut Trial, random: &mut Random, extent: &Extent) -> Outcome {
    for _ in 0..2 * extent.rounds {
        let Base { table, bytes } = bases::any(random);
        let fields = Layout::of(&table).fields;
        for _ in 0..8 {
            let field = &fields[random.below(fields.len())];
            if field.greatest < u16::MAX && field.at >= 7 {
                let mut bytes = bytes.clone();
                set(&mut bytes, field, field.greatest + 1);
                trial.compare(&bytes)?;
            }
        }
    }
    Ok(())
}

/// The hub of the worked example with up to eight pairs, of which one lists the
/// channel of an earlier one. A location that is absent in that pair is found before,
/// one in a later pair is not looked at.
pub(super) fn listed_again(trial: &mut Trial, random: &mut Random, extent: &Extent) -> Outcome {
    for _ in 0..extent.rounds {
        let mut table = bases::worked_example_on_bands().table;
        if random.once_in(2) {
            (table.version, table.bands) = (1, Vec::new());
        }
        let count = random.within(2..=8);
        let later = random.within(1..=count - 1);
        let earlier = random.below(later);
        let mut channels: Vec<u8> = (0..table.channels).collect();
        random.shuffle(&mut channels);
        channels[later] = channels[earlier];
        let mut pairs: Vec<Pair> = Vec::new();
        for channel in &channels[..count] {
            let location = random.below(3) as u8;
            pairs.push(Pair {
                channel: *channel,
                location,
            });
        }
        let absent = random.once_in(4);
        if absent {
            pairs[later].location = 3;
        } else if later + 1 < count {
            pairs[later + 1].location = random.within(0..=4) as u8;
        }
        let start = 73 + table.bands.len() + 2 * later;
        let answer = match absent {
            true => format!("5 1 9 0 {later} {start} 1 1 3 0 3 0"),
            false => {
                let channel = channels[earlier];
                format!("6 1 9 0 {later} {start} 0 1 {channel} 0 16 0")
            }
        };
        table.components[1].edges[0].action = Action::Receive(pairs.into_iter().collect());
        trial.expect_place(&write_table(&table), &answer)?;
    }
    Ok(())
}

/// Tables of the vectors and of the corpus with one byte or two changed.
pub(super) fn stored_damaged(trial: &mut Trial, random: &mut Random, extent: &Extent) -> Outcome {
    let mut stored = stored::corpus().map_err(Stop::Unreadable)?;
    stored.extend(stored::vectors().map_err(Stop::Unreadable)?);
    for table in stored.iter().filter(|table| table.bytes.len() > 7) {
        for _ in 0..extent.rounds.div_ceil(50) {
            trial.compare(&damaged(random, &table.bytes))?;
        }
    }
    Ok(())
}

/// The same with generated tables.
pub(super) fn generated_damaged(
    trial: &mut Trial,
    random: &mut Random,
    extent: &Extent,
) -> Outcome {
    for _ in 0..4 * extent.rounds {
        let Base { bytes, .. } = bases::any(random);
        for _ in 0..5 {
            trial.compare(&damaged(random, &bytes))?;
        }
    }
    Ok(())
}

/// One byte or two take another value; seldom one of the header.
fn damaged(random: &mut Random, bytes: &[u8]) -> Vec<u8> {
    let mut bytes = bytes.to_vec();
    for _ in 0..random.within(1..=2) {
        let first = if random.once_in(16) { 0 } else { 7 };
        let at = random.within(first..=bytes.len() - 1);
        let any = random.byte();
        let small = random.below(18) as u8;
        let bit = 1 << random.below(8);
        let byte = bytes[at];
        bytes[at] = random.pick(&[
            byte.wrapping_add(1),
            byte.wrapping_sub(1),
            byte ^ bit,
            small,
            any,
        ]);
    }
    bytes
}
