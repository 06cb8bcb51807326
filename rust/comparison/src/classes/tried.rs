//! Tables of several kinds, on which a class tries what it has to.

use super::close::{close_windows, moved_plan};
use super::planned::{drawn, hub_and_probes, side_by_side, with_workers, workers_alone};
use super::running::short_ticks;
use super::Extent;
use crate::difference::{Outcome, Stop};
use crate::random::Random;
use crate::stored;
use crate::tables::planned::{near_passages, shortened, Style};
use crate::trial::Trial;
use reference::table::{write_table, Table};

/// What is tried on the bytes of a table, so many times.
pub(super) type Tried = fn(&mut Trial, &mut Random, &[u8], usize) -> Outcome;

/// A table, now and then with another horizon.
pub(super) fn any_horizon(
    trial: &mut Trial,
    random: &mut Random,
    mut table: Table,
    tried: Tried,
) -> Outcome {
    if random.once_in(2) {
        table.horizon = near_passages(random, &table);
    }
    tried(trial, random, &write_table(&table), 3)
}

/// All tables of the vectors and the corpus.
pub(super) fn stored(
    trial: &mut Trial,
    random: &mut Random,
    extent: &Extent,
    tried: Tried,
) -> Outcome {
    let tables = stored::vectors().and_then(|vectors| Ok((vectors, stored::corpus()?)));
    let (vectors, corpus) = tables.map_err(Stop::Unreadable)?;
    for table in vectors.iter().chain(&corpus) {
        tried(trial, random, &table.bytes, extent.rounds.div_ceil(200))?;
    }
    Ok(())
}

/// A hub and its probes.
pub(super) fn regular(
    trial: &mut Trial,
    random: &mut Random,
    extent: &Extent,
    tried: Tried,
) -> Outcome {
    for _ in 0..extent.rounds {
        let longest = random.pick(&[1, 3, 20]);
        let table = hub_and_probes(random, longest);
        any_horizon(trial, random, table, tried)?;
    }
    Ok(())
}

/// Several hubs and channels, receives that time out, few edges or many; and two plans
/// on bands of their own, whose sends are made at once.
pub(super) fn planned(
    trial: &mut Trial,
    random: &mut Random,
    extent: &Extent,
    tried: Tried,
) -> Outcome {
    for _ in 0..extent.rounds {
        let size = short_ticks(random);
        let styles = [Style::sparse(random), Style::crowded(random)];
        for style in &styles {
            let table = drawn(random, &size, style);
            any_horizon(trial, random, table, tried)?;
        }
        let table = side_by_side(random);
        any_horizon(trial, random, table, tried)?;
    }
    Ok(())
}

/// Internal loops, alone and beside a plan.
pub(super) fn workers(
    trial: &mut Trial,
    random: &mut Random,
    extent: &Extent,
    tried: Tried,
) -> Outcome {
    for _ in 0..extent.rounds {
        let most = random.pick(&[10, 30, 80]);
        for table in [workers_alone(random), with_workers(random)] {
            any_horizon(trial, random, shortened(table, most), tried)?;
        }
    }
    Ok(())
}

/// Windows so close together that many of them touch.
pub(super) fn close(
    trial: &mut Trial,
    random: &mut Random,
    extent: &Extent,
    tried: Tried,
) -> Outcome {
    for _ in 0..3 * extent.rounds {
        for table in [close_windows(random), moved_plan(random)] {
            tried(trial, random, &write_table(&table), 3)?;
        }
    }
    Ok(())
}
