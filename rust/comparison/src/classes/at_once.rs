//! Tables for the edge choice: up to 32 edges from few locations, ready with no
//! delay or a tick or two later, without a window or with one, with data bounds
//! that hold at some entries and not at others.

use super::Extent;
use crate::difference::Outcome;
use crate::random::Random;
use crate::tables::bands;
use crate::trial::Trial;
use reference::table::*;

/// How many entries are made up for each table.
pub(super) const MADE_UP: usize = 6;

/// What the edges of a component refer to.
#[derive(Clone, Copy)]
struct Own {
    locations: usize,
    clocks: usize,
    variables: usize,
}

/// A component whose edges are ready soon, if ever.
fn component(random: &mut Random) -> Component {
    let own = Own {
        locations: random.pick(&[1, 1, 1, 2, 3]),
        clocks: random.within(1..=4),
        variables: random.within(0..=2),
    };
    let any = random.within(1..=32);
    let edges = random.pick(&[1, 2, 3, 31, 32, 32, any]);
    let location = |_| Location {
        clock: random.below(own.clocks) as u8,
        bound: random.within(1..=6) as u16,
    };
    let locations = (0..own.locations).map(location).collect();
    Component {
        initial: random.below(own.locations) as u8,
        clocks: own.clocks as u8,
        variables: own.variables as u8,
        locations,
        edges: edges_of(random, own, edges),
    }
}

/// The edges, of which few or many are ready with no delay.
fn edges_of(random: &mut Random, own: Own, count: usize) -> Vec<Edge> {
    let early = random.pick(&[1, 4, 40]);
    (0..count).map(|_| edge(random, own, early)).collect()
}

/// An internal edge; one in `early` has no low.
fn edge(random: &mut Random, own: Own, early: usize) -> Edge {
    let low = if random.once_in(early) { 0 } else { 1 };
    let clock_bounds = (0..random.pick(&[0, 1, 1, 1, 2])).map(|_| clock_bound(random, own, low));
    let clock_bounds = match low {
        0 => clock_bounds.collect(),
        _ => [clock_bound(random, own, low)].into_iter().collect(),
    };
    let data_bounds = match own.variables > 0 && random.once_in(2) {
        true => [data_bound(random, own)].into_iter().collect(),
        false => List::new(),
    };
    let updates = match own.variables > 0 && random.once_in(2) {
        true => [update(random, own)].into_iter().collect(),
        false => List::new(),
    };
    let (all, some) = ((1 << own.clocks) - 1, random.below(1 << own.clocks));
    let mask = random.pick(&[all, some]) as u8;
    Edge {
        source: random.below(own.locations) as u8,
        destination: random.below(own.locations) as u8,
        mask,
        clock_bounds,
        data_bounds,
        action: Action::Internal(updates),
        ..Edge::default()
    }
}

/// Low 0, 1 or 2 from the least on; no high, one that leaves no tick more, or
/// a few.
fn clock_bound(random: &mut Random, own: Own, least: u16) -> ClockBound {
    let low = least + random.below(3 - usize::from(least)) as u16;
    let some = random.within(0..=4) as u16;
    ClockBound {
        clock: random.below(own.clocks) as u8,
        low,
        high: random.pick(&[None, None, None, Some(low), Some(low + 1), Some(some)]),
    }
}

fn data_bound(random: &mut Random, own: Own) -> DataBound {
    let low = random.within(0..=6) as i16 - 3;
    DataBound {
        variable: random.below(own.variables) as u8,
        low,
        high: low + random.within(0..=4) as i16 - 1,
    }
}

fn update(random: &mut Random, own: Own) -> Update {
    Update {
        variable: random.below(own.variables) as u8,
        operation: random.pick(&[Operation::Set, Operation::Add]),
        number: random.within(0..=4) as i16 - 2,
    }
}

/// Such components alone and together.
pub(super) fn crowd(random: &mut Random) -> Table {
    let count = random.pick(&[1, 1, 1, 2, 3]);
    let (version, bands) = bands::drawn(random, 0);
    Table {
        version,
        bands,
        channels: 0,
        horizon: random.within(1..=40) as u16,
        components: (0..count).map(|_| component(random)).collect(),
    }
}

/// Such tables, each asked at the entries of its schedule, if it has one, and at
/// others.
pub(super) fn crowds(trial: &mut Trial, random: &mut Random, extent: &Extent) -> Outcome {
    for _ in 0..12 * extent.rounds {
        let bytes = write_table(&crowd(random));
        trial.expect_past(&bytes, 6)?;
        trial.choose_made_up(random, &bytes, MADE_UP)?;
    }
    Ok(())
}
