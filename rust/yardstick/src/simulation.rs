//! Simulated runs: what is drawn, and what is counted.

use crate::run::{Machine, Network};
use crate::table::COMPONENTS;
use crate::{Refusal, Yardstick, NONE};

/// "hi above 60,000 [...] with 23".
pub const MAX_WORK: u32 = 60_000;
/// "runs outside 1 to 10,000".
pub const MAX_RUNS: u32 = 10_000;
/// "its fixed seed 2463534242".
pub const SEED: u32 = 2_463_534_242;

/// What simulated runs came to.
#[derive(Clone, Copy, Debug, PartialEq, Eq)]
pub struct Simulation {
    /// The runs that ended late.
    pub late: u32,
    /// For each node those in which it was the lowest late one.
    pub nodes: [u32; COMPONENTS],
    /// The number drawn last, or the seed.
    pub state: u32,
}

impl Yardstick {
    /// So many runs of a table with work of lo to hi ticks, drawn by a generator that
    /// starts from its fixed seed.
    pub fn simulate(
        &mut self,
        bytes: &[u8],
        lo: u32,
        hi: u32,
        runs: u32,
    ) -> Result<Simulation, Refusal> {
        self.simulate_from(bytes, lo, hi, runs, SEED)
    }

    /// The same from a seed.
    pub fn simulate_from(
        &mut self,
        bytes: &[u8],
        lo: u32,
        hi: u32,
        runs: u32,
        seed: u32,
    ) -> Result<Simulation, Refusal> {
        self.check(bytes)?;
        if seed == 0 {
            return Err(Refusal::whole(22));
        }
        if lo > hi || hi > MAX_WORK || runs == 0 || runs > MAX_RUNS {
            return Err(Refusal::whole(23));
        }
        let network = Network {
            table: &self.table,
            bytes,
            schedule: &self.schedule,
        };
        let draws = Draws::new(lo, hi, seed);
        Ok(simulate(&mut self.machine, &network, draws, runs))
    }
}

/// Draws of work times.
pub(crate) struct Draws {
    /// "Marsaglia's 32-bit xorshift (13, 17, 5)".
    state: u32,
    lo: u32,
    /// "hi − lo + 1".
    span: u32,
}

impl Draws {
    /// Draws of lo to hi ticks from a seed.
    fn new(lo: u32, hi: u32, seed: u32) -> Draws {
        Draws {
            state: seed,
            lo,
            span: hi - lo + 1,
        }
    }

    /// "lo + (draw modulo (hi − lo + 1)) ticks of work".
    #[inline]
    pub(crate) fn ticks(&mut self) -> u32 {
        self.state ^= self.state << 13;
        self.state ^= self.state >> 17;
        self.state ^= self.state << 5;
        self.lo + self.state % self.span
    }
}

/// So many runs, one after the other.
fn simulate(machine: &mut Machine, network: &Network, mut draws: Draws, runs: u32) -> Simulation {
    let mut nodes = [0; COMPONENTS];
    let mut late = 0;
    machine.start(network, &[]);
    for run in 0..runs {
        if run > 0 {
            machine.start_again(network);
        }
        let node = machine.simulate(network, &mut draws);
        if node != NONE {
            late += 1;
            nodes[usize::from(node) % COMPONENTS] += 1;
        }
    }
    Simulation {
        late,
        nodes,
        state: draws.state,
    }
}
