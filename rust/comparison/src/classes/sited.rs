//! Sites: sequences of calls over pools of tables that have one horizon or another, or are
//! refused, with limits next to the sums of their airtimes.

use super::close::{close_windows, moved_plan};
use super::planned::{drawn, hub_and_probes, late_ticks, side_by_side, workers_alone};
use super::running::short_ticks;
use super::{budgets, Extent};
use crate::difference::{Outcome, Stop};
use crate::random::Random;
use crate::sites::{self, Candidate};
use crate::stored;
use crate::tables::planned::Style;
use crate::trial::Trial;
use reference::table::*;

/// The sequences of one pool.
const SEQUENCES: usize = 4;

/// Tries sequences over a pool.
fn share(trial: &mut Trial, random: &mut Random, pool: &[Candidate]) -> Outcome {
    for _ in 0..SEQUENCES {
        let limit = sites::limit(random, pool);
        trial.share(limit, &sites::drawn(random, pool))?;
    }
    Ok(())
}

/// A table with a horizon that is given.
fn with_horizon(mut table: Table, horizon: u16) -> Candidate {
    table.horizon = horizon;
    Candidate::new(write_table(&table))
}

/// A table of one of the kinds: with sends, or without.
fn table(random: &mut Random) -> Table {
    match random.below(8) {
        0 => workers_alone(random),
        1 => side_by_side(random),
        2 => close_windows(random),
        3 => moved_plan(random),
        4 => budgets::in_time_for_work(random),
        5 => {
            let (size, style) = (short_ticks(random), Style::sparse(random));
            drawn(random, &size, &style)
        }
        _ => {
            let longest = random.pick(&[1, 3, 20]);
            hub_and_probes(random, longest)
        }
    }
}

/// Tables with two horizons, most with the first, and bytes that are no table.
fn pool(random: &mut Random) -> Vec<Candidate> {
    let own = random.within(1..=120) as u16;
    let other = random.pick(&[own + 1, own.max(2) - 1, 2 * own, 60_000]);
    let mut pool: Vec<Candidate> = Vec::new();
    for number in 0..random.within(3..=8) {
        let horizon = if number > 2 && random.once_in(3) {
            other
        } else {
            own
        };
        let table = table(random);
        pool.push(with_horizon(table, horizon));
    }
    pool.push(with_horizon(hub_and_probes(random, 3), other));
    pool.push(Candidate::new(random.bytes(2)));
    pool
}

/// Tables that are made at random.
pub(super) fn drawn_tables(trial: &mut Trial, random: &mut Random, extent: &Extent) -> Outcome {
    for _ in 0..extent.rounds {
        let pool = pool(random);
        share(trial, random, &pool)?;
    }
    Ok(())
}

/// Long windows and late ticks: airtimes of more than 16 bits.
pub(super) fn long_airtimes(trial: &mut Trial, random: &mut Random, extent: &Extent) -> Outcome {
    for _ in 0..extent.rounds.div_ceil(10) {
        let mut pool: Vec<Candidate> = Vec::new();
        for _ in 0..4 {
            pool.push(with_horizon(late_ticks(random), 60_000));
            pool.push(with_horizon(long_sends(random), 60_000));
        }
        share(trial, random, &pool)?;
    }
    Ok(())
}

/// A sender whose windows are thousands of ticks long, and its listener, which listens
/// around them.
fn long_sends(random: &mut Random) -> Table {
    let ready = 1 + random.below(50) as u16;
    let round = random.pick(&[20_000, 29_999, 59_000]);
    let bound = |low| ClockBound {
        clock: 0,
        low,
        high: None,
    };
    let arc = |source, destination, mask, low, action| Edge {
        source,
        destination,
        mask,
        clock_bounds: [bound(low)].into_iter().collect(),
        action,
        ..Edge::default()
    };
    let location = |bound| Location { clock: 0, bound };
    let component = |bounds: [u16; 2], edges: [Edge; 2]| Component {
        initial: 0,
        clocks: 1,
        variables: 0,
        locations: bounds.map(location).to_vec(),
        edges: edges.to_vec(),
    };
    let rest = || arc(1, 0, 1, round - 1, Edge::default().action);
    let pair = Pair {
        channel: 0,
        location: 1,
    };
    let listen = Action::Receive([pair].into_iter().collect());
    Table {
        version: 1,
        bands: Vec::new(),
        channels: 1,
        horizon: MAX_TICKS,
        components: vec![
            component(
                [round - 9, round],
                [arc(0, 1, 0, ready, Action::Send(0)), rest()],
            ),
            component(
                [round - 5, round],
                [arc(0, 1, 0, ready - 1, listen), rest()],
            ),
        ],
    }
}

/// The tables of the vectors and the corpus, a few of them at a time.
pub(super) fn stored(trial: &mut Trial, random: &mut Random, extent: &Extent) -> Outcome {
    let tables = stored::vectors().and_then(|vectors| Ok((vectors, stored::corpus()?)));
    let (vectors, corpus) = tables.map_err(Stop::Unreadable)?;
    let all: Vec<&[u8]> = vectors
        .iter()
        .chain(&corpus)
        .map(|stored| &stored.bytes[..])
        .collect();
    for _ in 0..extent.rounds {
        let pool: Vec<Candidate> = (0..10)
            .map(|_| Candidate::new(random.pick(&all).to_vec()))
            .collect();
        share(trial, random, &pool)?;
    }
    Ok(())
}
