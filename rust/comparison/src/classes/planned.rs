//! Tables made to be accepted.

use super::Extent;
use crate::difference::Outcome;
use crate::random::Random;
use crate::tables::bands;
use crate::tables::planned::{
    near_passages, shortened, table, worker, Plan, Size, Style, WorkerSize,
};
use crate::trial::Trial;
use reference::table::{write_table, Component, Table, MAX_CHANNELS, MAX_COMPONENTS, MAX_TICKS};
use timed_network::{Verdict, MAX_PASSAGES};

/// Tries a table that has to be accepted, then with other horizons that leave
/// it accepted: at and next to ticks at which something happens.
fn accept(trial: &mut Trial, random: &mut Random, mut table: Table, horizons: usize) -> Outcome {
    trial.expect(&write_table(&table), Verdict::Accepted)?;
    for _ in 0..horizons {
        table.horizon = near_passages(random, &table);
        trial.expect(&write_table(&table), Verdict::Accepted)?;
    }
    Ok(())
}

/// One hub and up to 7 probes, written as one would write them by hand.
pub(super) fn regular(trial: &mut Trial, random: &mut Random, extent: &Extent) -> Outcome {
    for _ in 0..extent.rounds {
        let longest = random.pick(&[1, 3, 20, usize::MAX]);
        let table = hub_and_probes(random, longest);
        accept(trial, random, table, 2)?;
    }
    Ok(())
}

/// A hub and its probes with slots and guards of up to so many ticks, if
/// there is room for them.
pub(super) fn hub_and_probes(random: &mut Random, longest: usize) -> Table {
    let probes = random.within(1..=7);
    let most = longest.min(usize::from(MAX_TICKS) / (3 * probes + 1));
    let [slot, guard] = [0, 0].map(|_| random.within(1..=most) as u32);
    let plan = Plan::regular(probes, slot, guard, random.below(2 * most) as u32);
    let rounds = random.within(1..=4) as u32;
    let lanes = plan.plain_lanes();
    let horizon = horizon_of(plan.round * rounds);
    let table = table(random, &lanes, plan.channels, horizon, &Style::PLAIN);
    shortened(table, MAX_PASSAGES)
}

/// The horizon at this tick, if one can be there.
pub(super) fn horizon_of(ticks: u32) -> u16 {
    ticks.clamp(1, MAX_TICKS.into()) as u16
}

/// Any plan, written in this style, of up to three rounds.
pub(super) fn drawn(random: &mut Random, size: &Size, style: &Style) -> Table {
    let plan = Plan::draw(random, size);
    let lanes = plan.lanes(random);
    let rounds = random.within(1..=3) as u32;
    let horizon = horizon_of(plan.round * rounds);
    let table = table(random, &lanes, plan.channels, horizon, style);
    shortened(table, MAX_PASSAGES)
}

/// Several hubs and channels, receives that time out, several clocks with
/// partial resets, high bounds of edges below those of locations.
pub(super) fn sparse(trial: &mut Trial, random: &mut Random, extent: &Extent) -> Outcome {
    for _ in 0..3 * extent.rounds {
        let style = Style::sparse(random);
        let size = Size::any(random);
        let table = drawn(random, &size, &style);
        accept(trial, random, table, 2)?;
    }
    Ok(())
}

/// The same with many edges at a location: ready together, later, never, for
/// one tick, or with data bounds that do not hold.
pub(super) fn crowded(trial: &mut Trial, random: &mut Random, extent: &Extent) -> Outcome {
    for _ in 0..3 * extent.rounds {
        let style = Style::crowded(random);
        let size = Size::any(random);
        let table = drawn(random, &size, &style);
        accept(trial, random, table, 2)?;
    }
    Ok(())
}

/// Two plans beside each other, the channels of each on bands of its own: what
/// one sends disturbs nobody in the other.
pub(super) fn two_bands(trial: &mut Trial, random: &mut Random, extent: &Extent) -> Outcome {
    for _ in 0..3 * extent.rounds {
        let table = side_by_side(random);
        accept(trial, random, table, 2)?;
    }
    Ok(())
}

/// Two such plans, with rounds of their own.
pub(super) fn side_by_side(random: &mut Random) -> Table {
    let [one, other] = [0, 1].map(|_| {
        let size = Size::small(random);
        Plan::draw(random, &size)
    });
    let mut lanes = one.lanes(random);
    lanes.extend(
        other
            .lanes(random)
            .iter()
            .map(|lane| lane.raised(one.channels)),
    );
    let rounds = random.within(1..=3) as u32;
    let horizon = horizon_of(one.round.max(other.round) * rounds);
    let style = Style::sparse(random);
    let channels = one.channels + other.channels;
    let mut table = table(random, &lanes, channels, horizon, &style);
    bands::apart(random, &mut table, one.channels);
    shortened(table, MAX_PASSAGES)
}

/// Plans whose second round begins shortly before the last horizon that there
/// is, so that its windows lie past any number of 16 bits.
pub(super) fn far(trial: &mut Trial, random: &mut Random, extent: &Extent) -> Outcome {
    for _ in 0..extent.rounds {
        let table = late_ticks(random);
        accept(trial, random, table, 1)?;
    }
    Ok(())
}

/// A plan whose second round begins late.
pub(super) fn late_ticks(random: &mut Random) -> Table {
    let unit = u32::from(MAX_TICKS);
    let size = Size::any(random).with_unit(unit);
    let mut plan = Plan::draw(random, &size);
    plan.round = random.within(plan.round.max(50_000) as usize..=59_999) as u32;
    let lanes = plan.lanes(random);
    let style = Style::sparse(random);
    let horizon = MAX_TICKS - random.below(9) as u16;
    table(random, &lanes, plan.channels, horizon, &style)
}

/// A worker that fits into the bytes that a component has.
fn any_worker(random: &mut Random, channels: u8, room: usize) -> Component {
    let ticks = random.pick(&[2, 4, 9, 30, 700, MAX_TICKS]);
    let edges = random.within(1..=32.min(room / 50));
    let locations = random.within(1..=edges.min(16));
    let work = WorkerSize {
        ticks,
        locations: locations as u8,
        edges: edges as u8,
        silent: channels..MAX_CHANNELS,
    };
    worker(random, &work)
}

/// Internal loops with counters, data bounds, partial resets and up to 32
/// edges at a location.
pub(super) fn workers(trial: &mut Trial, random: &mut Random, extent: &Extent) -> Outcome {
    for _ in 0..3 * extent.rounds {
        let table = workers_alone(random);
        let most = most_passages(random);
        accept(trial, random, shortened(table, most), 1)?;
    }
    Ok(())
}

/// Few enough passages to try many tables, sometimes as many as there may be.
fn most_passages(random: &mut Random) -> usize {
    random.pick(&[40, 40, 80, 80, 80, 150, 150, MAX_PASSAGES])
}

/// Workers and nothing else.
pub(super) fn workers_alone(random: &mut Random) -> Table {
    let count = random.within(1..=MAX_COMPONENTS);
    let channels = random.count(&(0..=3));
    let components = (0..count)
        .map(|_| any_worker(random, channels, 8000 / count))
        .collect();
    let most = random.pick(&[30, 400, usize::from(MAX_TICKS)]);
    let (version, bands) = bands::drawn(random, MAX_CHANNELS);
    Table {
        version,
        bands,
        channels: MAX_CHANNELS,
        horizon: random.within(1..=most) as u16,
        components,
    }
}

/// A plan with workers beside it.
pub(super) fn mixed(trial: &mut Trial, random: &mut Random, extent: &Extent) -> Outcome {
    for _ in 0..2 * extent.rounds {
        let table = with_workers(random);
        let most = most_passages(random);
        accept(trial, random, shortened(table, most), 1)?;
    }
    Ok(())
}

/// A plan, and workers for the components that are left.
pub(super) fn with_workers(random: &mut Random) -> Table {
    let size = Size::any(random);
    let mut table = drawn(random, &size, &Style::PLAIN);
    let free = MAX_COMPONENTS - table.components.len();
    let length = write_table(&table).len();
    for _ in 0..free {
        let room = (8192 - usize::from(MAX_CHANNELS) - length) / free;
        table
            .components
            .push(any_worker(random, size.channels, room));
    }
    random.shuffle(&mut table.components);
    bands::with_channels(random, &mut table, MAX_CHANNELS);
    table
}
