//! The choices of one simulated run. They are written down by the second implementation
//! and handed to the library's run, which has to end as the library's simulation of this
//! run does.

use super::counted::simulated;
use super::Experiment;
use reference::checks::verdict;
use reference::simulation::{Generator, Simulator, WorkTimes};
use timed_network::{run, End, Refused, Run, Simulation, MAX_PASSAGES, OBSERVATION};

/// The choices of a run by its number, or what is wrong with them.
pub fn choices(table: &[u8], experiment: &Experiment, number: u32) -> Result<Vec<u8>, String> {
    let failed = |refused: Refused| format!("a run of the simulation is refused: {refused}");
    let generator = match number {
        0 => experiment.start(),
        _ => {
            let before = simulated(table, experiment, number, experiment.start());
            before.map_err(failed)?.generator
        }
    };
    let expected = simulated(table, experiment, 1, generator).map_err(failed)?;
    let (choices, after) = written_down(table, experiment, generator)?;
    let mut observations = vec![0; OBSERVATION * MAX_PASSAGES];
    let ran = run(table, &choices, &mut observations).map_err(failed)?;
    if after == expected.generator && ends_as(&ran, &expected) {
        Ok(choices)
    } else {
        Err(format!(
            "the choices of run {number} do not end as its simulation does"
        ))
    }
}

/// The choices, and the generator after them.
fn written_down(
    table: &[u8],
    experiment: &Experiment,
    generator: u32,
) -> Result<(Vec<u8>, u32), String> {
    let refused = |refusal| format!("the second implementation refuses the table: {refusal:?}");
    let (table, passages) = verdict(table).map_err(refused)?;
    let Experiment { lo, hi, .. } = *experiment;
    let generator = Generator::seeded(generator);
    let mut simulator = Simulator::new(&table, &passages, WorkTimes { lo, hi }, generator);
    let choices = simulator.run().choices;
    Ok((choices, simulator.generator().state()))
}

/// Whether a run ends as the only one of a simulation.
fn ends_as(ran: &Run, expected: &Simulation) -> bool {
    match ran.end {
        End::Horizon => expected.late == 0,
        End::Late => expected.nodes.get(usize::from(ran.node)) == Some(&1),
        _ => false,
    }
}
