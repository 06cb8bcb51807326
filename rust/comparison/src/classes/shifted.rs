//! Valid tables with parts or bytes added or taken away, and with lengths
//! changed.

use super::bases::{self, Base};
use super::Extent;
use crate::bytes::{add_two, left_out, repeated, replaced, set_two, two, Lengths};
use crate::difference::Outcome;
use crate::layout::Layout;
use crate::random::Random;
use crate::tables::{table, Shape};
use crate::trial::Trial;
use reference::table::write_table;

/// A part stands there twice, or not at all; its count says so. Tables at the
/// limits get past them by this: 5 bounds, 9 pairs, 33 edges.
pub(super) fn parts(trial: &mut Trial, random: &mut Random, extent: &Extent) -> Outcome {
    for base in bases::a_few(random) {
        let layout = Layout::of(&base.table);
        for part in layout.parts.iter().step_by(extent.step) {
            for lengths in Lengths::ALL {
                trial.compare(&repeated(&base.bytes, part, lengths))?;
                trial.compare(&left_out(&base.bytes, part, lengths))?;
            }
        }
    }
    for _ in 0..extent.rounds {
        parts_of_greatest(trial, random)?;
    }
    Ok(())
}

/// Some parts of a table with as many of each thing as is allowed.
fn parts_of_greatest(trial: &mut Trial, random: &mut Random) -> Outcome {
    let table = table(random, &Shape::greatest());
    let (bytes, layout) = (write_table(&table), Layout::of(&table));
    for _ in 0..5 {
        let part = &layout.parts[random.below(layout.parts.len())];
        trial.compare(&repeated(&bytes, part, Lengths::ALL[0]))?;
        trial.compare(&left_out(&bytes, part, Lengths::ALL[0]))?;
    }
    Ok(())
}

/// Lengths of components changed, bytes put in and taken out.
pub(super) fn bytes(trial: &mut Trial, random: &mut Random, extent: &Extent) -> Outcome {
    for _ in 0..2 * extent.rounds {
        let base = bases::any(random);
        let layout = Layout::of(&base.table);
        lengths_changed(trial, random, &base, &layout)?;
        length_moved(trial, random, &base, &layout)?;
        for _ in 0..3 {
            put_in(trial, random, &base, &layout)?;
            take_out(trial, random, &base, &layout)?;
        }
    }
    Ok(())
}

/// The length of one component becomes another one.
fn lengths_changed(
    trial: &mut Trial,
    random: &mut Random,
    base: &Base,
    layout: &Layout,
) -> Outcome {
    let component = random.below(layout.components.len());
    let at = layout.components[component].start;
    let old = two(&base.bytes, at);
    let to_end = (base.bytes.len() - at) as u16;
    let mut others = vec![0, 1, 2, 6, 7, 8, 9, 10, 16, 17, to_end, to_end + 1, 65_535];
    others.extend((1..=8).flat_map(|step| [old + step, old.saturating_sub(step)]));
    if let Some(next) = layout.components.get(component + 1) {
        others.push(old + next.len() as u16);
    }
    others.push(random.within(0..=base.bytes.len()) as u16);
    let mut bytes = base.bytes.clone();
    for other in others {
        set_two(&mut bytes, at, other);
        trial.compare(&bytes)?;
    }
    Ok(())
}

/// Two components that follow each other: the first takes bytes from the
/// second one's length, or gives it some.
fn length_moved(trial: &mut Trial, random: &mut Random, base: &Base, layout: &Layout) -> Outcome {
    if layout.components.len() < 2 {
        return Ok(());
    }
    let first = random.below(layout.components.len() - 1);
    let [at, next] = [first, first + 1].map(|number| layout.components[number].start);
    for more in [-9, -7, -3, -2, -1, 1, 2, 3, 7, 9] {
        let mut bytes = base.bytes.clone();
        add_two(&mut bytes, at, more);
        add_two(&mut bytes, next, -more);
        trial.compare(&bytes)?;
    }
    Ok(())
}

/// Up to 8 bytes put in anywhere behind the header, or at the end.
fn put_in(trial: &mut Trial, random: &mut Random, base: &Base, layout: &Layout) -> Outcome {
    let at = random.within(7..=base.bytes.len());
    let count = random.within(1..=8);
    let more = if random.once_in(2) {
        vec![0; count]
    } else {
        random.bytes(count)
    };
    // Right behind a component they count as its own.
    let component = component_before(layout, at);
    for lengths in Lengths::ALL {
        trial.compare(&replaced(&base.bytes, at..at, &more, component, lengths))?;
    }
    Ok(())
}

/// Up to 8 bytes taken out anywhere behind the header.
fn take_out(trial: &mut Trial, random: &mut Random, base: &Base, layout: &Layout) -> Outcome {
    let at = random.within(7..=base.bytes.len() - 1);
    let end = base.bytes.len().min(at + random.within(1..=8));
    let component = component_before(layout, at + 1);
    for lengths in Lengths::ALL {
        trial.compare(&replaced(&base.bytes, at..end, &[], component, lengths))?;
    }
    Ok(())
}

/// Where the component starts that holds the byte before this place; the
/// first one if that is the header.
fn component_before(layout: &Layout, at: usize) -> Option<usize> {
    let mut starts = layout.components.iter().map(|range| range.start);
    starts.rfind(|start| *start < at.max(8))
}
