//! The runs of a simulation in pieces, each of which goes on from the generator that the
//! one before it left: their sums are those of all runs at once.

use super::progress::Progress;
use super::Experiment;
use timed_network::{simulate, Refused, Simulation};

/// The runs of a piece.
const PIECE: u32 = 100;
/// The work times of a sweep, at most.
const TIMES: u32 = 41;

/// What all runs came to.
#[derive(Clone, Debug, PartialEq, Eq)]
pub struct Counted {
    /// The runs that ended late.
    pub late: u32,
    /// Those of each node.
    pub nodes: Vec<u32>,
    /// The number of the first that did, and its node.
    pub first_late: Option<(u32, usize)>,
    /// The generator after the last run.
    pub generator: u32,
}

/// Counts the runs of an experiment that the library takes.
pub fn count(
    table: &[u8],
    experiment: &Experiment,
    progress: &mut Progress,
) -> Result<Counted, Refused> {
    let mut all = Counted {
        late: 0,
        nodes: Vec::new(),
        first_late: None,
        generator: experiment.start(),
    };
    let mut done = 0;
    while done < experiment.runs {
        let runs = PIECE.min(experiment.runs - done);
        let before = all.generator;
        let piece = simulated(table, experiment, runs, before)?;
        if all.first_late.is_none() && piece.late > 0 {
            let first = first_late(table, experiment, before)?;
            all.first_late = first.map(|(number, node)| (done + number, node));
        }
        all.add(piece);
        done += runs;
        progress.advance(runs);
    }
    progress.clear();
    Ok(all)
}

/// So many runs from a generator.
pub fn simulated(
    table: &[u8],
    experiment: &Experiment,
    runs: u32,
    generator: u32,
) -> Result<Simulation, Refused> {
    simulate(table, experiment.lo..=experiment.hi, runs, Some(generator))
}

/// The first late run of a piece, and its node: one run after the other.
fn first_late(
    table: &[u8],
    experiment: &Experiment,
    mut generator: u32,
) -> Result<Option<(u32, usize)>, Refused> {
    for number in 0..PIECE {
        let run = simulated(table, experiment, 1, generator)?;
        if let Some(node) = run.nodes.iter().position(|count| *count > 0) {
            return Ok(Some((number, node)));
        }
        generator = run.generator;
    }
    Ok(None)
}

impl Counted {
    fn add(&mut self, piece: Simulation) {
        self.late += piece.late;
        self.nodes.resize(piece.nodes.len(), 0);
        for (all, own) in self.nodes.iter_mut().zip(piece.nodes) {
            *all += own;
        }
        self.generator = piece.generator;
    }
}

/// The greatest work times of a sweep: all from the least to the greatest, or so many of
/// them at even distances, both included.
pub fn work_times(lo: u32, hi: u32) -> Vec<u32> {
    match hi - lo {
        0..TIMES => (lo..=hi).collect(),
        span => {
            let time = |place| lo + (u64::from(span) * place / u64::from(TIMES - 1)) as u32;
            (0..u64::from(TIMES)).map(time).collect()
        }
    }
}

#[cfg(test)]
mod tests {
    use super::*;

    #[test]
    fn work_times_from_the_least_to_the_greatest() {
        assert_eq!(work_times(3, 3), [3]);
        assert_eq!(work_times(0, 3), [0, 1, 2, 3]);
        assert_eq!(work_times(5, 45), (5..=45).collect::<Vec<_>>());
        let many = work_times(10, 60_000);
        assert_eq!((many.len(), many[0], many[40]), (41, 10, 60_000));
        assert_eq!((many[1], many[20]), (1_509, 30_005));
        assert!(many.is_sorted_by(|a, b| a < b));
        assert_eq!(work_times(0, 41).len(), 41);
    }
}
