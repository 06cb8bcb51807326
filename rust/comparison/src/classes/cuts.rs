//! Valid tables cut at each length. What is cut off still stands behind the
//! bytes handed in, so that reading on would not go unnoticed.

use super::bases;
use super::Extent;
use crate::bytes::{set_two, TOTAL};
use crate::difference::Outcome;
use crate::layout::Layout;
use crate::random::Random;
use crate::trial::Trial;

/// The lengths inside stay as they are.
pub(super) fn kept(trial: &mut Trial, random: &mut Random, extent: &Extent) -> Outcome {
    each_cut(random, extent, |bytes, _, length| {
        trial.compare(&bytes[..length])
    })
}

/// The table states the length that is left.
pub(super) fn total_stated(trial: &mut Trial, random: &mut Random, extent: &Extent) -> Outcome {
    each_cut(random, extent, |bytes, _, length| {
        if length > TOTAL + 1 {
            set_two(bytes, TOTAL, length as u16);
        }
        trial.compare(&bytes[..length])
    })
}

/// The table and the component that is cut state the lengths that are left.
pub(super) fn both_stated(trial: &mut Trial, random: &mut Random, extent: &Extent) -> Outcome {
    each_cut(random, extent, |bytes, layout, length| {
        if length > TOTAL + 1 {
            set_two(bytes, TOTAL, length as u16);
        }
        let cut = |range: &&std::ops::Range<usize>| range.contains(&length);
        if let Some(range) = layout.components.iter().find(cut) {
            set_two(bytes, range.start, (length - range.start) as u16);
        }
        trial.compare(&bytes[..length])
    })
}

/// Goes through all lengths of a few tables. The bytes may be changed for one
/// length; the next one starts from the table again.
fn each_cut(
    random: &mut Random,
    extent: &Extent,
    mut one: impl FnMut(&mut [u8], &Layout, usize) -> Outcome,
) -> Outcome {
    let mut all = bases::a_few(random);
    all.push(bases::longest(random));
    for base in &all {
        let layout = Layout::of(&base.table);
        for length in (0..base.bytes.len()).step_by(extent.step) {
            one(&mut base.bytes.clone(), &layout, length)?;
        }
    }
    Ok(())
}
