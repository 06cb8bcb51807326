//! The safe calls `simulate` and `simulate_numbers`: the worked example, the vectors,
//! runs in pieces, refusals.

mod common;

use common::*;
use reference::checks::verdict;
use reference::simulation::{choices_of_run, WorkTimes};
use timed_network::{run, simulate, simulate_numbers, End, Simulation, SimulationNumbers};
use timed_network::{MAX_PASSAGES, MAX_RUNS, MAX_WORK, OBSERVATION, SEED};

/// The answer as the vectors write it.
fn told(answer: &SimulationNumbers, nodes: usize) -> String {
    let SimulationNumbers {
        number, component, ..
    } = answer;
    if *number != 0 {
        assert_eq!((answer.late, answer.nodes, answer.state), (0, [0; 8], 0));
        return format!("refused {number} {component}");
    }
    assert_eq!(*component, 255);
    let (own, absent) = answer.nodes.split_at(nodes);
    assert!(absent.iter().all(|count| *count == 0));
    let counts: String = own.iter().map(|count| format!(" {count}")).collect();
    format!("{}{counts}|state {}", answer.late, answer.state)
}

#[test]
fn all_vectors() {
    let mut count = 0;
    for line in text("vectors/simulations.tsv").lines() {
        let fields: Vec<&str> = line.split('\t').collect();
        let words: Vec<&str> = fields[1].split(' ').collect();
        assert_eq!(words[0], "sim");
        let table = unhex(words[1]);
        let numbers: Vec<u32> = words[2..]
            .iter()
            .map(|word| word.parse().unwrap())
            .collect();
        let (&[lo, hi, runs], seed) = numbers.split_first_chunk().unwrap();
        let seed = seed.first().copied();
        let answer = simulate_numbers(&table, [lo, hi], runs, seed);
        let nodes = table.get(3).map_or(0, |count| usize::from(*count));
        assert_eq!(told(&answer, nodes), fields[2], "{}", fields[0]);
        match simulate(&table, lo..=hi, runs, seed) {
            Ok(simulation) => {
                assert_eq!(simulation.late, simulation.nodes.iter().sum());
                assert_eq!(simulation.nodes, answer.nodes[..nodes]);
                assert_eq!(
                    (simulation.late, simulation.generator),
                    (answer.late, answer.state)
                );
            }
            Err(refused) => assert_eq!(refused, refusal(answer.number, answer.component)),
        }
        count += 1;
    }
    assert_eq!(count, 104);
}

/// So many runs, and so many more from the generator that these left.
#[test]
fn runs_in_pieces() {
    let asked = |runs, seed| simulate(&PROBE_AND_HUB, 0..=3, runs, seed).unwrap();
    let all = asked(300, None);
    let mut sum = Simulation {
        late: 0,
        nodes: vec![0; 2],
        generator: SEED,
    };
    for runs in [1, 99, 150, 50] {
        let piece = asked(runs, Some(sum.generator));
        sum.late += piece.late;
        sum.nodes
            .iter_mut()
            .zip(piece.nodes)
            .for_each(|(all, more)| *all += more);
        sum.generator = piece.generator;
    }
    assert_eq!(sum, all);
}

/// Each run of a simulation is a run of the choices that the second implementation
/// writes down for it.
#[test]
fn each_run_is_a_run_of_its_choices() {
    let (table, passages) = verdict(&PROBE_AND_HUB).unwrap();
    let mut generator = 7;
    for number in 0..50 {
        let answer = simulate(&PROBE_AND_HUB, 0..=2, 1, Some(generator)).unwrap();
        let work = WorkTimes { lo: 0, hi: 2 };
        let choices = choices_of_run(&table, &passages, work, number, Some(7)).unwrap();
        let mut observations = [0; OBSERVATION * MAX_PASSAGES];
        let run = run(&PROBE_AND_HUB, &choices, &mut observations).unwrap();
        assert_eq!(run.used as usize, choices.len());
        match answer.late {
            0 => assert_eq!((run.end, run.tick), (End::Horizon, 20)),
            _ => {
                assert_eq!(run.end, End::Late);
                assert_eq!(answer.nodes[usize::from(run.node)], 1);
            }
        }
        generator = answer.generator;
    }
}

/// The table's own refusal, then 22, then 23.
#[test]
fn the_order_of_the_refusals() {
    let late = with(70, 3);
    for (lo, hi, runs) in [
        (1, 0, 1),
        (0, MAX_WORK + 1, 1),
        (0, 1, 0),
        (0, 1, MAX_RUNS + 1),
        (0, u32::MAX, 1),
        (u32::MAX, u32::MAX, u32::MAX),
    ] {
        for (seed, number) in [(Some(0), 22), (None, 23), (Some(1), 23)] {
            let asked = |table: &[u8]| told(&simulate_numbers(table, [lo, hi], runs, seed), 0);
            assert_eq!(asked(&PROBE_AND_HUB), format!("refused {number} 255"));
            assert_eq!(asked(&late), "refused 16 0");
            assert_eq!(asked(&[]), "refused 1 255");
            let refused = simulate(&PROBE_AND_HUB, lo..=hi, runs, seed);
            assert_eq!(refused, Err(refusal(number, 255)));
        }
    }
    let fixed = simulate(&PROBE_AND_HUB, 0..=MAX_WORK, 1, Some(SEED));
    assert_eq!(fixed, simulate(&PROBE_AND_HUB, 0..=MAX_WORK, 1, None));
    assert_eq!(fixed.map(|simulation| simulation.late), Ok(1));
}
