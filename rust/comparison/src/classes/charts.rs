//! Tables for charts: horizons next to those at which cells get one tick more,
//! and windows that start and end next to the ends of cells.

use super::planned::{drawn, hub_and_probes};
use super::Extent;
use crate::difference::Outcome;
use crate::random::Random;
use crate::tables::bands;
use crate::tables::planned::{Size, Style};
use crate::trial::Trial;
use reference::table::*;

/// The cells of a row.
const CELLS: usize = 64;

/// A horizon: a multiple of the count of cells, next to one, or below it.
fn horizon(random: &mut Random) -> u16 {
    let most = usize::from(MAX_TICKS);
    let near = CELLS * random.pick(&[1, 1, 2, 3, 10, 937]) + random.within(0..=2) - 1;
    let few = random.within(1..=CELLS);
    let any = random.within(1..=most);
    random.pick(&[near, few, any]) as u16
}

/// Plans up to such horizons. Some are refused: a window may be cut off from
/// its listener.
pub(super) fn horizons(trial: &mut Trial, random: &mut Random, extent: &Extent) -> Outcome {
    for round in 0..3 * extent.rounds {
        let mut table = match round % 2 {
            0 => hub_and_probes(random, 3),
            _ => {
                let (size, style) = (Size::any(random), Style::sparse(random));
                drawn(random, &size, &style)
            }
        };
        for _ in 0..2 {
            table.horizon = horizon(random);
            trial.compare(&write_table(&table))?;
        }
    }
    Ok(())
}

/// A tick next to the start of a cell.
fn near_cell(random: &mut Random, horizon: u16) -> u16 {
    let start = random.within(0..=CELLS) * usize::from(horizon) / CELLS;
    (start + random.within(0..=2)).saturating_sub(1) as u16
}

/// A component alone with one window, which is internal or receives and is
/// left at its end; the window starts and ends next to starts of cells.
fn alone(random: &mut Random, horizon: u16) -> Component {
    let [one, other] = [0, 0].map(|_| near_cell(random, horizon));
    let (low, bound) = (one.min(other), one.max(other).max(one.min(other) + 1));
    let pair = Pair {
        channel: 0,
        location: 0,
    };
    let action = match random.below(2) {
        0 => Action::Internal(List::new()),
        _ => Action::Receive([pair].into_iter().collect()),
    };
    let clock_bound = ClockBound {
        clock: 0,
        low,
        high: None,
    };
    Component {
        initial: 0,
        clocks: 1,
        variables: 0,
        locations: vec![Location {
            clock: 0,
            bound: bound.min(MAX_TICKS),
        }],
        edges: vec![Edge {
            source: 0,
            destination: 0,
            mask: 1,
            clock_bounds: [clock_bound].into_iter().collect(),
            action,
            ..Edge::default()
        }],
    }
}

/// Components that meet nobody, each with a window over and over.
pub(super) fn windows(trial: &mut Trial, random: &mut Random, extent: &Extent) -> Outcome {
    for _ in 0..3 * extent.rounds {
        let horizon = horizon(random);
        let count = random.within(1..=8);
        let channels = 1;
        let (version, bands) = bands::drawn(random, channels);
        let table = Table {
            version,
            bands,
            channels,
            horizon,
            components: (0..count).map(|_| alone(random, horizon)).collect(),
        };
        trial.compare(&write_table(&table))?;
    }
    Ok(())
}
