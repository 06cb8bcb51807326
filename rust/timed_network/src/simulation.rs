//! Trying work times (document 02, wish 10): runs in which the ticks that work takes are
//! drawn.

mod exported;

pub use exported::SimulationNumbers;

use crate::{Refused, Verdict};
use std::ops::RangeInclusive;

/// The seed that the generator starts from unless one is given.
pub const SEED: u32 = 2_463_534_242;
/// The most runs of a simulation.
pub const MAX_RUNS: u32 = 10_000;
/// The most ticks that work may take in one.
pub const MAX_WORK: u32 = 60_000;

/// What simulated runs came to.
#[derive(Clone, Debug, PartialEq, Eq)]
pub struct Simulation {
    /// How many runs ended late; all others came to the horizon.
    pub late: u32,
    /// For each node of the table how many of them ended with its number, the lowest
    /// late one. The sum is `late`.
    pub nodes: Vec<u32>,
    /// The generator after the last run. As the seed of a further simulation it makes
    /// runs that go on where these ended.
    pub generator: u32,
}

/// Simulates runs of a table, all nodes waking at tick 0. Each sleep that is finished
/// before a send or an internal edge draws how many ticks the work behind it takes, any
/// number of `work` (the draw modulo its length, above its start); everything else is
/// finished as early as it is allowed. One generator, Marsaglia's xorshift of 32 bits,
/// draws for all nodes and all runs; it starts from [`SEED`] unless a seed is given.
///
/// Refused with 1 to 12 as [`crate::check`] refuses, then with 22 where the seed is 0,
/// then with 23 where the start of `work` is above its end, the end above [`MAX_WORK`],
/// or `runs` 0 or above [`MAX_RUNS`].
///
/// ```
/// use timed_network::{plan, simulate, Refusal, Slots, MAX_PLAN};
///
/// let [probes, slot, guard, period] = [1, 40, 5, 500];
/// let mut table = [0; MAX_PLAN];
/// let size = plan(Slots { probes, slot, guard, period }, &mut table).size;
/// let table = &table[..size];
/// assert_eq!(simulate(table, 0..=1, 100, None)?.late, 0);
/// let slower = simulate(table, 41..=41, 100, None)?;
/// assert_eq!((slower.late, slower.nodes), (100, vec![100, 0]));
/// let refused = simulate(table, 0..=1, 100, Some(0)).unwrap_err();
/// assert_eq!(refused.refusal, Refusal::Seed);
/// # Ok::<(), timed_network::Refused>(())
/// ```
pub fn simulate(
    table: &[u8],
    work: RangeInclusive<u32>,
    runs: u32,
    seed: Option<u32>,
) -> Result<Simulation, Refused> {
    let answer = simulate_numbers(table, [*work.start(), *work.end()], runs, seed);
    Verdict::of(answer.number, answer.component).into_result()?;
    let components = usize::from(table[3]);
    Ok(Simulation {
        late: answer.late,
        nodes: answer.nodes[..components].to_vec(),
        generator: answer.state,
    })
}

/// The same with the answer as plain numbers, those of refused runs included. Work takes
/// the first of the two numbers to the second.
///
/// ```
/// use timed_network::simulate_numbers;
///
/// let answer = simulate_numbers(&[], [0, 1], 100, None);
/// assert_eq!((answer.number, answer.component), (1, 255));
/// assert_eq!((answer.late, answer.nodes, answer.state), (0, [0; 8], 0));
/// ```
pub fn simulate_numbers(
    table: &[u8],
    work: [u32; 2],
    runs: u32,
    seed: Option<u32>,
) -> SimulationNumbers {
    match seed {
        None => exported::simulate(table, work, runs),
        Some(seed) => exported::simulate_from(table, work, runs, seed),
    }
}
