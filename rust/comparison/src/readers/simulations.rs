//! The simulations of the library and of the second implementation.

use crate::simulations::Experiment;
use reference::calls;
use reference::simulation::WorkTimes;
use timed_network::{simulate_numbers, SimulationNumbers};

/// The library's counts.
pub(super) fn library_simulate(table: &[u8], experiment: &Experiment) -> SimulationNumbers {
    let Experiment { lo, hi, runs, seed } = *experiment;
    simulate_numbers(table, [lo, hi], runs, seed)
}

/// The second implementation's counts.
pub fn second_simulate(table: &[u8], experiment: &Experiment) -> SimulationNumbers {
    let Experiment { lo, hi, runs, seed } = *experiment;
    match calls::simulate(table, WorkTimes { lo, hi }, runs, seed) {
        Ok(simulation) => {
            let mut nodes = [0; 8];
            nodes[..simulation.nodes.len()].copy_from_slice(&simulation.nodes);
            SimulationNumbers {
                number: 0,
                component: 255,
                late: simulation.late,
                nodes,
                state: simulation.generator.state(),
            }
        }
        Err(refusal) => refused_simulation(refusal.number, refusal.component),
    }
}

/// The answer to a simulation that is refused.
pub const fn refused_simulation(number: u8, component: u8) -> SimulationNumbers {
    SimulationNumbers {
        number,
        component,
        late: 0,
        nodes: [0; 8],
        state: 0,
    }
}
