//! Simulated runs: which work times are tried, what both count, and what was counted of
//! it.

mod tally;

pub use tally::Simulated;

use crate::lists::Unlike;
use crate::random::Random;
use crate::readers::Readers;
use reference::schedule::Passage;
use timed_network::{SimulationNumbers, MAX_RUNS, MAX_WORK, SEED};

/// Work times to be tried, in how many runs, and from which seed.
#[derive(Clone, Copy, Debug, PartialEq, Eq)]
pub struct Experiment {
    /// The least ticks of work.
    pub lo: u32,
    /// The greatest.
    pub hi: u32,
    /// The runs.
    pub runs: u32,
    /// The seed, unless it is the fixed one.
    pub seed: Option<u32>,
}

impl Experiment {
    /// What the generator starts from.
    pub fn start(&self) -> u32 {
        self.seed.unwrap_or(SEED)
    }
}

/// So many runs with work times next to the length of a window, from a seed that is
/// given or not.
pub fn drawn(random: &mut Random, passages: &[Passage], runs: u32) -> Experiment {
    let passage = random.pick(passages);
    let length = passage.end - passage.ready;
    let wide = random.within(0..=2 * length as usize) as u32;
    let hi = random.pick(&[length - 1, length, length, length + 1, wide, 0, MAX_WORK]);
    let hi = hi.min(MAX_WORK);
    let any = random.within(0..=hi as usize) as u32;
    let lo = random.pick(&[0, 0, hi, hi.saturating_sub(1), length.min(hi), any]);
    let drawn = (random.number() as u32).max(1);
    let seeds = [
        None,
        Some(SEED),
        Some(1),
        Some(u32::MAX),
        Some(drawn),
        Some(drawn),
    ];
    Experiment {
        lo,
        hi,
        runs,
        seed: random.pick(&seeds),
    }
}

/// The same with numbers that are refused, each on the other side of its bound or far
/// from it, or cut to 16 bits on the right one.
pub fn spoilt(random: &mut Random, good: Experiment) -> Experiment {
    let Experiment { lo, hi, runs, .. } = good;
    let seed = Some(0);
    let high = (random.number() as u32) & !0xffff | 0x1_0000;
    match random.below(10) {
        0 => Experiment { seed, ..good },
        1 => Experiment {
            seed,
            runs: 0,
            ..good
        },
        2 => Experiment {
            seed,
            lo: hi + 1,
            ..good
        },
        3 => Experiment { lo: hi + 1, ..good },
        4 => Experiment {
            hi: MAX_WORK + 1,
            ..good
        },
        5 => Experiment { runs: 0, ..good },
        6 => Experiment {
            runs: MAX_RUNS + 1,
            ..good
        },
        7 => Experiment {
            lo: 0,
            hi: u32::MAX,
            ..good
        },
        8 => Experiment {
            runs: runs | high,
            ..good
        },
        _ => Experiment {
            lo: lo | high,
            hi: hi | high,
            ..good
        },
    }
}

/// An answer in words: as the vectors write it, with eight nodes.
pub fn words(answer: &SimulationNumbers) -> String {
    let SimulationNumbers {
        number,
        component,
        late,
        nodes,
        state,
    } = answer;
    let refused = (*late, *nodes, *state) == (0, [0; 8], 0);
    let verdict = match (number, component) {
        (0, 255) => String::new(),
        _ if refused => return format!("refused {number} {component}"),
        _ => format!("number {number}, component {component}, "),
    };
    let nodes: String = nodes.iter().map(|count| format!(" {count}")).collect();
    format!("{verdict}{late}{nodes}|state {state}")
}

/// Simulates on both sides.
pub fn compare(
    readers: &Readers,
    table: &[u8],
    experiment: &Experiment,
) -> Result<SimulationNumbers, Unlike> {
    let library = (readers.library.simulate)(table, experiment);
    let second = (readers.second.simulate)(table, experiment);
    if library == second {
        return Ok(library);
    }
    Err(Unlike {
        library: words(&library),
        second: words(&second),
    })
}

#[cfg(test)]
mod tests {
    use super::*;
    use crate::readers::{second_simulate, Reader};
    use crate::tables::WORKED_EXAMPLE;
    use reference::checks::verdict;

    const EXPERIMENT: Experiment = Experiment {
        lo: 0,
        hi: 2,
        runs: 10,
        seed: None,
    };

    /// Counts one late run more.
    fn one_more(table: &[u8], experiment: &Experiment) -> SimulationNumbers {
        let answer = second_simulate(table, experiment);
        SimulationNumbers {
            late: answer.late + 1,
            ..answer
        }
    }

    #[test]
    fn answers_are_told_in_words() {
        let second = Reader::second();
        let library = Reader {
            simulate: one_more,
            ..second
        };
        let readers = Readers { library, second };
        let told = compare(&readers, &WORKED_EXAMPLE, &EXPERIMENT).unwrap_err();
        assert_eq!(told.second, "4 0 4 0 0 0 0 0 0|state 2678912195");
        assert_eq!(told.library, "5 0 4 0 0 0 0 0 0|state 2678912195");
        let seed = Some(0);
        let told = compare(
            &readers,
            &WORKED_EXAMPLE,
            &Experiment { seed, ..EXPERIMENT },
        );
        let told = told.unwrap_err();
        assert_eq!(told.second, "refused 22 255");
        let counted = "number 22, component 255, 1 0 0 0 0 0 0 0 0|state 0";
        assert_eq!(told.library, counted);
        let readers = Readers {
            library: second,
            second,
        };
        let answer = compare(&readers, &WORKED_EXAMPLE, &EXPERIMENT).unwrap();
        assert_eq!((answer.late, answer.nodes[1]), (4, 4));
    }

    /// Windows of one, two, four and more ticks.
    #[test]
    fn work_times_of_all_kinds_are_drawn() {
        let (_, passages) = verdict(&WORKED_EXAMPLE).unwrap();
        let mut random = Random::new(1);
        let many: Vec<Experiment> = (0..2_000)
            .map(|_| drawn(&mut random, &passages, 3))
            .collect();
        for hi in [0, 1, 2, 3, 4, 5, 8, MAX_WORK] {
            assert!(many.iter().any(|experiment| experiment.hi == hi), "{hi}");
        }
        for seed in [None, Some(SEED), Some(1), Some(u32::MAX)] {
            assert!(many.iter().any(|experiment| experiment.seed == seed));
        }
        for experiment in many {
            assert!(experiment.lo <= experiment.hi && experiment.hi <= MAX_WORK);
            assert!(experiment.seed != Some(0) && experiment.runs == 3);
            let answer = second_simulate(&WORKED_EXAMPLE, &spoilt(&mut random, experiment));
            assert!(matches!(answer.number, 22 | 23));
        }
    }
}
