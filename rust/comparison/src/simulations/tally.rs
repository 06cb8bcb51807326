//! What simulated runs came to.

use super::Experiment;
use crate::readers::{NO_SEED, NO_SIMULATION};
use std::fmt;
use timed_network::SimulationNumbers;

/// What came of simulations.
#[derive(Clone, Copy, Debug, Default, PartialEq, Eq)]
pub struct Simulated {
    /// Simulations of which no run ended late.
    pub in_time: u64,
    /// Those of which some runs did.
    pub sometimes_late: u64,
    /// Those of which all runs did.
    pub always_late: u64,
    /// Those with late runs of several nodes.
    pub several_nodes: u64,
    /// Those in which nothing was drawn.
    pub undrawn: u64,
    /// A seed of 0.
    pub seedless: u64,
    /// Work times or runs out of range.
    pub out_of_range: u64,
    /// The table is refused.
    pub refused: u64,
    /// The runs of all simulations.
    pub runs: u64,
    /// Those whose choices were handed to the run.
    pub handed: u64,
    /// Those of them that ended late.
    pub handed_late: u64,
}

impl Simulated {
    /// The simulations that took place.
    pub fn counted(&self) -> u64 {
        self.in_time + self.sometimes_late + self.always_late
    }

    /// All simulations.
    pub fn all(&self) -> u64 {
        self.counted() + self.seedless + self.out_of_range + self.refused
    }

    /// Counts an answer.
    pub fn count(&mut self, experiment: &Experiment, answer: &SimulationNumbers) {
        let place = match answer.number {
            0 if answer.late == 0 => &mut self.in_time,
            0 if answer.late < experiment.runs => &mut self.sometimes_late,
            0 => &mut self.always_late,
            NO_SEED => &mut self.seedless,
            NO_SIMULATION => &mut self.out_of_range,
            _ => &mut self.refused,
        };
        *place += 1;
        if answer.number == 0 {
            let late = answer.nodes.iter().filter(|count| **count > 0);
            self.several_nodes += u64::from(late.count() > 1);
            self.undrawn += u64::from(answer.state == experiment.start());
            self.runs += u64::from(experiment.runs);
        }
    }

    /// Adds what another class counted.
    pub fn add(&mut self, other: &Simulated) {
        self.in_time += other.in_time;
        self.sometimes_late += other.sometimes_late;
        self.always_late += other.always_late;
        self.several_nodes += other.several_nodes;
        self.undrawn += other.undrawn;
        self.seedless += other.seedless;
        self.out_of_range += other.out_of_range;
        self.refused += other.refused;
        self.runs += other.runs;
        self.handed += other.handed;
        self.handed_late += other.handed_late;
    }

    /// What came less often than so many times.
    pub fn gaps(&self, least: u64) -> Vec<String> {
        let kinds = [
            (self.in_time, "simulations without a late run"),
            (self.sometimes_late, "simulations with some late runs"),
            (self.always_late, "simulations with late runs alone"),
            (self.several_nodes, "simulations with several late nodes"),
            (self.undrawn, "simulations in which nothing was drawn"),
            (self.seedless, "simulations refused with 22"),
            (self.out_of_range, "simulations refused with 23"),
            (self.refused, "simulations of refused tables"),
            (self.handed - self.handed_late, "simulated runs in time"),
            (self.handed_late, "simulated runs that were late"),
        ];
        let rare = kinds.into_iter().filter(|(count, _)| *count < least);
        let gap = |(count, kind)| format!("{count} {kind} are fewer than {least}");
        rare.map(gap).collect()
    }
}

impl fmt::Display for Simulated {
    fn fmt(&self, out: &mut fmt::Formatter<'_>) -> fmt::Result {
        write!(
            out,
            "{} simulations: in time {}, some late {}, all late {} ({} of several nodes), \
             refused 22: {}, refused 23: {}, table refused {}, nothing drawn {}; \
             {} simulated runs, {} of them handed on as choices, {} late",
            self.all(),
            self.in_time,
            self.sometimes_late,
            self.always_late,
            self.several_nodes,
            self.seedless,
            self.out_of_range,
            self.refused,
            self.undrawn,
            self.runs,
            self.handed,
            self.handed_late
        )
    }
}
