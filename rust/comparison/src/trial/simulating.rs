//! Simulated runs of a class.

use super::Trial;
use crate::difference::{Outcome, Stop};
use crate::lists::Unlike;
use crate::runs::{self, Subject};
use crate::simulations::{self, words, Experiment};
use demand::Demand;
use reference::run::{End, Outcome as Ended};
use reference::simulation::{Generator, SimulatedRun, Simulator, WorkTimes};
use timed_network::{SimulationNumbers, MAX_RUNS, SEED};

impl Trial<'_> {
    /// Simulates runs of a table on both sides.
    pub fn simulate(&mut self, input: &[u8], experiment: &Experiment) -> Outcome {
        self.simulated(input, experiment).map(|_| ())
    }

    fn simulated(
        &mut self,
        input: &[u8],
        experiment: &Experiment,
    ) -> Result<SimulationNumbers, Stop> {
        match simulations::compare(self.readers, input, experiment) {
            Ok(answer) => {
                self.tally.simulated.count(experiment, &answer);
                Ok(answer)
            }
            Err(unlike) => Err(self.differs(input, call(experiment), unlike, None)),
        }
    }

    /// Simulates runs of an accepted table, and hands the choices of each to the run: it
    /// has to end in the same way, and the late ones have to be those that are counted.
    pub fn simulate_and_run(&mut self, subject: &Subject, experiment: &Experiment) -> Outcome {
        let answer = self.simulated(&subject.bytes, experiment)?;
        let demand = subject.demand();
        let mut simulator = simulator(subject, experiment);
        let (mut late, mut nodes) = (0, [0; 8]);
        for number in 0..experiment.runs {
            let run = simulator.run();
            self.run_simulated(subject, &demand, &run, experiment, number)?;
            if run.outcome.end == End::Late {
                late += 1;
                nodes[usize::from(run.outcome.node)] += 1;
            }
        }
        let counted = SimulationNumbers {
            late,
            nodes,
            state: simulator.generator().state(),
            ..answer
        };
        self.demand(
            &subject.bytes,
            &call(experiment),
            words(&answer),
            words(&counted),
        )
    }

    /// Runs the choices of a simulated run on both sides, the first ones of a simulation
    /// also held to demand 3.
    fn run_simulated(
        &mut self,
        subject: &Subject,
        demand: &Demand,
        run: &SimulatedRun,
        experiment: &Experiment,
        number: u32,
    ) -> Outcome {
        let demand = Some(demand).filter(|_| number < HELD);
        let call = || format!("run {number} of: {}", call(experiment));
        let compared = runs::compare(
            self.readers,
            &subject.bytes,
            demand,
            &run.choices,
            subject.needed(),
        );
        let ran = match compared {
            Ok(ran) => ran,
            Err(broken) => {
                return Err(self.differs(&subject.bytes, call(), broken.unlike, broken.demand))
            }
        };
        self.tally.simulated.handed += 1;
        self.tally.simulated.handed_late += u64::from(run.outcome.end == End::Late);
        let Ended {
            end,
            node,
            tick,
            used,
        } = run.outcome;
        let answer = ran.answer;
        if (answer.number, answer.end, answer.node) == (0, end as u8, node)
            && (answer.tick, u64::from(answer.used)) == (tick, used)
        {
            return Ok(());
        }
        let unlike = Unlike {
            library: runs::numbers(&answer),
            second: format!("{:?}", run.outcome),
        };
        Err(self.differs(&subject.bytes, call(), unlike, None))
    }

    /// Simulates a refused table; what is tried does not matter.
    pub(super) fn simulate_refused(&mut self, input: &[u8]) -> Outcome {
        let turn = self.tally.simulated.all();
        let pick = |turn: u64, numbers: [u32; 3]| numbers[(turn % 3) as usize];
        let experiment = Experiment {
            lo: 1,
            hi: pick(turn, [1, 0, u32::MAX]),
            runs: pick(turn / 3, [1, 0, MAX_RUNS + 1]),
            seed: [None, Some(SEED), Some(0)][(turn / 9 % 3) as usize],
        };
        let answer = self.simulated(input, &experiment)?;
        let expected = (self.readers.library.check)(input).to_string();
        self.demand(input, &call(&experiment), words(&answer), expected)
    }

    /// Both have to answer in these words, those of absent nodes left out.
    pub fn expect_simulation(
        &mut self,
        input: &[u8],
        experiment: &Experiment,
        answer: &str,
    ) -> Outcome {
        let said = self.simulated(input, experiment)?;
        let expected = with_eight_nodes(answer);
        self.demand(input, &call(experiment), words(&said), expected)?;
        self.compare(input)
    }
}

/// So many of the first runs of a simulation are held to demand 3.
const HELD: u32 = 2;

/// The runs of a simulation, one after the other.
fn simulator<'a>(subject: &'a Subject, experiment: &Experiment) -> Simulator<'a> {
    let Experiment { lo, hi, .. } = *experiment;
    let generator = Generator::seeded(experiment.start());
    let work = WorkTimes { lo, hi };
    Simulator::new(&subject.table, &subject.passages, work, generator)
}

/// The counts of a vector, with a 0 for each node that the table does not have.
fn with_eight_nodes(answer: &str) -> String {
    match answer.split_once('|') {
        Some((counts, state)) => {
            let absent = 9usize.saturating_sub(counts.split(' ').count());
            format!("{counts}{}|{state}", " 0".repeat(absent))
        }
        None => answer.to_string(),
    }
}

/// The call with its numbers.
fn call(experiment: &Experiment) -> String {
    let Experiment { lo, hi, runs, seed } = experiment;
    let seed = seed.map_or("the fixed seed".to_string(), |seed| format!("seed {seed}"));
    format!("simulate, work of {lo} to {hi} ticks, {runs} runs from {seed}")
}
