//! Valid tables with one byte changed.

use super::bases::{self, Base};
use super::Extent;
use crate::difference::Outcome;
use crate::random::Random;
use crate::trial::Trial;

/// Each byte of the worked example, and of those with bands and with budgets, takes
/// all 255 other values.
pub(super) fn worked_example(trial: &mut Trial, _: &mut Random, extent: &Extent) -> Outcome {
    for base in [
        bases::worked_example(),
        bases::worked_example_on_bands(),
        bases::worked_example_with_budgets(),
    ] {
        for at in (0..base.bytes.len()).step_by(extent.step) {
            change(trial, &base, at, |_| (0..=u8::MAX).collect())?;
        }
    }
    Ok(())
}

/// Each byte of other tables takes the values of [`sample`].
pub(super) fn larger(trial: &mut Trial, random: &mut Random, extent: &Extent) -> Outcome {
    let mut all = bases::a_few(random);
    all.push(bases::longest(random));
    for base in &all {
        for at in (0..base.bytes.len()).step_by(extent.step) {
            change(trial, base, at, sample)?;
        }
    }
    Ok(())
}

/// The ends of the range, the neighbours, and each bit changed.
fn sample(byte: u8) -> Vec<u8> {
    let mut values = vec![0, 1, 2, 255];
    values.extend([byte.wrapping_add(1), byte.wrapping_sub(1)]);
    values.extend((0..8).map(|bit| byte ^ (1 << bit)));
    values.sort();
    values.dedup();
    values
}

fn change(trial: &mut Trial, base: &Base, at: usize, values: fn(u8) -> Vec<u8>) -> Outcome {
    let mut bytes = base.bytes.clone();
    let old = bytes[at];
    for value in values(old) {
        if value != old {
            bytes[at] = value;
            trial.compare(&bytes)?;
        }
    }
    Ok(())
}
