//! Simulated runs with work times next to the lengths of the windows, each run handed on
//! as a list of choices.

use super::running::dead_end;
use super::{budgets, tried, Extent};
use crate::difference::Outcome;
use crate::random::Random;
use crate::runs::Subject;
use crate::simulations::{self, spoilt, Experiment};
use crate::trial::Trial;
use reference::table::*;
use timed_network::{Verdict, MAX_RUNS, MAX_WORK};

/// The most runs of a simulation whose runs are handed on.
const RUNS: usize = 20;
/// The ticks of all runs of a simulation, at most, about.
const TICKS: usize = 4_000;
/// The horizon of a table that is simulated in as many runs as there may be, at most.
const SHORT: u16 = 40;

/// Tries work times on a table, if it is accepted: in 1 to 20 runs, fewer where they are
/// long, each of them handed on; and now and then with numbers that are refused, or in
/// as many runs as there may be.
fn simulate(trial: &mut Trial, random: &mut Random, table: &[u8], times: usize) -> Outcome {
    let Some(subject) = Subject::new(table) else {
        return Ok(());
    };
    let horizon = subject.table.horizon;
    let most = (TICKS / usize::from(horizon)).clamp(1, RUNS);
    for _ in 0..times {
        let runs = random.within(1..=most) as u32;
        let experiment = simulations::drawn(random, &subject.passages, runs);
        trial.simulate_and_run(&subject, &experiment)?;
        if random.once_in(4) {
            trial.simulate(table, &spoilt(random, experiment))?;
        }
        if horizon <= SHORT && random.once_in(64) {
            let runs = MAX_RUNS;
            trial.simulate(table, &Experiment { runs, ..experiment })?;
        }
    }
    Ok(())
}

/// All accepted tables of the vectors and the corpus.
pub(super) fn stored(trial: &mut Trial, random: &mut Random, extent: &Extent) -> Outcome {
    tried::stored(trial, random, extent, simulate)
}

/// A hub and its probes.
pub(super) fn regular(trial: &mut Trial, random: &mut Random, extent: &Extent) -> Outcome {
    tried::regular(trial, random, extent, simulate)
}

/// Planned tables, and locations behind the last passages that no edge leaves.
pub(super) fn planned(trial: &mut Trial, random: &mut Random, extent: &Extent) -> Outcome {
    tried::planned(trial, random, extent, simulate)?;
    for _ in 0..extent.rounds {
        let table = dead_end(random);
        simulate(trial, random, &write_table(&table), 3)?;
    }
    Ok(())
}

/// Internal loops.
pub(super) fn workers(trial: &mut Trial, random: &mut Random, extent: &Extent) -> Outcome {
    tried::workers(trial, random, extent, simulate)
}

/// Windows close together, where they are accepted.
pub(super) fn close(trial: &mut Trial, random: &mut Random, extent: &Extent) -> Outcome {
    tried::close(trial, random, extent, simulate)
}

/// Edges with a work budget.
pub(super) fn with_budgets(trial: &mut Trial, random: &mut Random, extent: &Extent) -> Outcome {
    for _ in 0..extent.rounds {
        let table = budgets::in_time_for_work(random);
        tried::any_horizon(trial, random, table, simulate)?;
    }
    Ok(())
}

/// Long windows up to the longest that there is, late ticks, and work of as many ticks
/// as there may be.
pub(super) fn longest_work(trial: &mut Trial, random: &mut Random, extent: &Extent) -> Outcome {
    for _ in 0..extent.rounds.div_ceil(50) {
        let components = (0..1 + random.below(2)).map(|_| slow_worker(random));
        let table = write_table(&Table {
            version: 1,
            bands: Vec::new(),
            channels: 0,
            components: components.collect(),
            horizon: random.pick(&[MAX_TICKS, MAX_TICKS - 1, 30_000]),
        });
        let Some(subject) = Subject::new(&table) else {
            return trial.expect(&table, Verdict::Accepted);
        };
        for hi in [MAX_WORK - 1, MAX_WORK] {
            let experiment = Experiment {
                lo: random.pick(&[0, hi]),
                hi,
                runs: 2,
                seed: None,
            };
            trial.simulate_and_run(&subject, &experiment)?;
        }
    }
    Ok(())
}

/// A component that works again and again in a long window.
fn slow_worker(random: &mut Random) -> Component {
    let bound = ClockBound {
        clock: 0,
        low: random.below(3) as u16,
        high: None,
    };
    Component {
        initial: 0,
        clocks: 1,
        variables: 0,
        locations: vec![Location {
            clock: 0,
            bound: random.pick(&[MAX_TICKS, 29_000, 11_000]),
        }],
        edges: vec![Edge {
            mask: 1,
            clock_bounds: [bound].into_iter().collect(),
            ..Edge::default()
        }],
    }
}
