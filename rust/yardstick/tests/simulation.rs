//! Simulated runs: the vectors, runs in pieces, and many runs of a long table in a
//! short time.

mod common;

use common::*;
use yardstick::{plan, Refusal, Simulation, Yardstick, MAX_RUNS, OBSERVATION, SEED};

/// Counts as the vectors write them, for so many nodes.
fn counted(simulation: Simulation, nodes: usize) -> String {
    let Simulation {
        late,
        nodes: counts,
        state,
    } = simulation;
    let (own, absent) = counts.split_at(nodes);
    assert!(absent.iter().all(|count| *count == 0));
    assert_eq!(own.iter().sum::<u32>(), late);
    let own: String = own.iter().map(|count| format!(" {count}")).collect();
    format!("{late}{own}|state {state}")
}

#[test]
fn all_vectors() {
    let mut yardstick = Yardstick::new();
    let mut count = 0;
    for line in text("vectors/simulations.tsv").lines() {
        let fields: Vec<&str> = line.split('\t').collect();
        let words: Vec<&str> = fields[1].split(' ').collect();
        assert_eq!(words[0], "sim");
        let table = unhex(words[1]);
        let numbers: Vec<u32> = words[2..]
            .iter()
            .map(|word| word.parse().unwrap())
            .collect();
        let answer = match numbers[..] {
            [lo, hi, runs] => yardstick.simulate(&table, lo, hi, runs),
            [lo, hi, runs, seed] => yardstick.simulate_from(&table, lo, hi, runs, seed),
            _ => panic!("three or four numbers: {numbers:?}"),
        };
        let nodes = table.get(3).map_or(0, |count| usize::from(*count));
        let given = told(answer.map(|simulation| counted(simulation, nodes)));
        assert_eq!(given, fields[2], "{}", fields[0]);
        count += 1;
    }
    assert_eq!(count, 104);
}

/// The table of a plan with another horizon.
fn planned(numbers: [u32; 4], horizon: u16) -> Vec<u8> {
    let mut table = vec![0; 414];
    let length = plan(numbers, &mut table).unwrap();
    table.truncate(length);
    table[5..7].copy_from_slice(&horizon.to_be_bytes());
    table
}

/// So many runs, and so many more from the state that these left.
#[test]
fn runs_in_pieces() {
    let mut yardstick = Yardstick::new();
    for table in [
        bytes("corpus/probe_and_hub.bin"),
        bytes("corpus/accepted_eight_components.bin"),
        planned([7, 10, 3, 200], 1_000),
    ] {
        let all = yardstick.simulate(&table, 0, 3, 300).unwrap();
        let mut sum = Simulation {
            late: 0,
            nodes: [0; 8],
            state: SEED,
        };
        for runs in [1, 99, 150, 50] {
            let piece = yardstick
                .simulate_from(&table, 0, 3, runs, sum.state)
                .unwrap();
            sum.late += piece.late;
            sum.nodes
                .iter_mut()
                .zip(piece.nodes)
                .for_each(|(all, more)| *all += more);
            sum.state = piece.state;
        }
        assert_eq!(sum, all);
    }
}

/// Simulated runs and runs of choices use the same nodes: neither changes the other.
#[test]
fn a_run_after_a_simulation() {
    let mut yardstick = Yardstick::new();
    let table = bytes("corpus/probe_and_hub.bin");
    let choices = [0, 0, 0, 0, 0, 1, 1, 1, 1, 1, 255, 255, 1];
    let words = [hex(&table), hex(&choices)];
    let words = [words[0].as_str(), words[1].as_str()];
    let lent = 1024 * OBSERVATION;
    let before = run(&mut yardstick, lent, &words);
    let counts = yardstick.simulate(&table, 0, 3, 100);
    assert_eq!(run(&mut yardstick, lent, &words), before);
    assert_eq!(yardstick.simulate(&table, 0, 3, 100), counts);
    let refused = Refusal {
        number: 23,
        component: 255,
    };
    assert_eq!(yardstick.simulate(&table, 0, 3, MAX_RUNS + 1), Err(refused));
}

/// Idle ticks are passed over: tick by tick these are 60 million for eight nodes.
#[test]
fn many_runs_of_a_long_table() {
    let mut yardstick = Yardstick::new();
    let table = planned([7, 50, 20, 1_300], 59_800);
    let simulation = yardstick.simulate(&table, 0, 1, 1_000).unwrap();
    assert_eq!(simulation.late, 0);
}
