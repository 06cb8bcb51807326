//! Simulations that are wrong in one point are found out.

mod finding;
mod plain_simulation;

use comparison::readers::{refused_simulation, second_simulate, Reader, Readers, Simulates};
use comparison::simulations::Experiment;
use finding::{classes, finder, tried};
use plain_simulation::Fault;
use timed_network::{SimulationNumbers, MAX_RUNS, MAX_WORK, SEED};

/// Implementations, each with one of the faults.
macro_rules! wrong {
    ($($fault:ident)*) => {
        [$((Fault::$fault, with(|table, experiment| {
            plain_simulation::simulate(table, experiment, Fault::$fault)
        }))),*]
    };
}

fn with(simulate: Simulates) -> Reader {
    Reader {
        simulate,
        ..Reader::second()
    }
}

/// The classes of simulations of tables that are made at random.
fn drawn(class: &str) -> bool {
    class.starts_with("simulations ") && class != "simulations of stored tables"
}

/// The class of stored requests.
fn stored(class: &str) -> bool {
    class == "programs, parts and runs of the vectors"
}

#[test]
fn the_plain_simulation_agrees_with_the_second() {
    let [(_, library)] = wrong![None];
    let second = Reader::second();
    for class in classes(drawn).chain(classes(stored)) {
        let readers = Readers { library, second };
        assert_eq!(tried(&readers, class), Ok(()), "{}", class.name);
    }
}

#[test]
fn each_fault_is_found() {
    let faults = wrong![
        DrawsStateBefore LastShiftBy7 SecondShiftLeft LoForgotten HiNeverDrawn
        WorkFromNextTick DrawsBeforeListen NoDrawBeforeSend NoDrawBeforeInternal SendsAtOnce
        DoneAtOnce GeneratorPerNode FromLastToFirst OneStatementATurn
        SameSeedForEachRun FixedSeedAlways HighestLateNode AllLateNodes CountedForNode0
        LastRunOnly AllInTime HorizonBeforeLate LateAtEnd MovesAtHorizon OneRunLess SeedTold
    ];
    let mut missed = Vec::new();
    for (fault, reader) in faults {
        let by_drawn = finder(drawn, reader, Reader::second());
        let by_stored = finder(stored, reader, Reader::second());
        println!("{fault:?}: {by_drawn:?}, {by_stored:?}");
        let only_drawn = fault == Fault::OneStatementATurn;
        if by_drawn.is_none() || by_stored.is_none() && !only_drawn {
            missed.push(fault);
        }
    }
    assert_eq!(missed, []);
}

/// The second implementation's answer to other numbers where one is refused.
fn unless_refused(
    number: u8,
    table: &[u8],
    experiment: &Experiment,
    others: impl FnOnce(Experiment) -> Experiment,
) -> SimulationNumbers {
    let answer = second_simulate(table, experiment);
    if answer.number == number {
        second_simulate(table, &others(*experiment))
    } else {
        answer
    }
}

fn seed_0_is_the_fixed_one(table: &[u8], experiment: &Experiment) -> SimulationNumbers {
    unless_refused(22, table, experiment, |good| Experiment {
        seed: Some(SEED),
        ..good
    })
}

fn twenty_three_first(table: &[u8], experiment: &Experiment) -> SimulationNumbers {
    let seed = None;
    let unseeded = second_simulate(
        table,
        &Experiment {
            seed,
            ..*experiment
        },
    );
    match unseeded.number {
        23 => unseeded,
        _ => second_simulate(table, experiment),
    }
}

fn no_runs(table: &[u8], experiment: &Experiment) -> SimulationNumbers {
    let answer = second_simulate(table, experiment);
    if (answer.number, experiment.runs) == (23, 0) && experiment.lo <= experiment.hi {
        SimulationNumbers {
            state: experiment.start(),
            ..refused_simulation(0, 255)
        }
    } else {
        answer
    }
}

fn one_run_too_many(table: &[u8], experiment: &Experiment) -> SimulationNumbers {
    unless_refused(23, table, experiment, |good| Experiment {
        runs: good.runs - u32::from(good.runs == MAX_RUNS + 1),
        ..good
    })
}

fn most_runs_refused(table: &[u8], experiment: &Experiment) -> SimulationNumbers {
    match experiment.runs {
        MAX_RUNS => {
            let runs = MAX_RUNS + 1;
            second_simulate(
                table,
                &Experiment {
                    runs,
                    ..*experiment
                },
            )
        }
        _ => second_simulate(table, experiment),
    }
}

fn work_too_long(table: &[u8], experiment: &Experiment) -> SimulationNumbers {
    unless_refused(23, table, experiment, |good| Experiment {
        hi: good.hi - u32::from(good.hi == MAX_WORK + 1),
        ..good
    })
}

fn longest_work_refused(table: &[u8], experiment: &Experiment) -> SimulationNumbers {
    match experiment.hi {
        MAX_WORK => {
            let hi = MAX_WORK + 1;
            second_simulate(table, &Experiment { hi, ..*experiment })
        }
        _ => second_simulate(table, experiment),
    }
}

fn lo_and_hi_exchanged(table: &[u8], experiment: &Experiment) -> SimulationNumbers {
    unless_refused(23, table, experiment, |good| Experiment {
        lo: good.lo.min(good.hi),
        hi: good.lo.max(good.hi),
        ..good
    })
}

fn numbers_of_16_bits(table: &[u8], experiment: &Experiment) -> SimulationNumbers {
    unless_refused(23, table, experiment, |good| Experiment {
        lo: good.lo & 0xffff,
        hi: good.hi & 0xffff,
        runs: good.runs & 0xffff,
        ..good
    })
}

fn numbers_before_the_table(table: &[u8], experiment: &Experiment) -> SimulationNumbers {
    let answer = second_simulate(table, experiment);
    match answer.number {
        1..=17 if experiment.runs == 0 => refused_simulation(23, 255),
        _ => answer,
    }
}

fn seed_before_the_table(table: &[u8], experiment: &Experiment) -> SimulationNumbers {
    let answer = second_simulate(table, experiment);
    match answer.number {
        1..=17 if experiment.seed == Some(0) => refused_simulation(22, 255),
        _ => answer,
    }
}

fn names_a_component(table: &[u8], experiment: &Experiment) -> SimulationNumbers {
    let answer = second_simulate(table, experiment);
    match answer.number {
        22 | 23 => SimulationNumbers {
            component: 0,
            ..answer
        },
        _ => answer,
    }
}

fn tells_the_state_after_a_refusal(table: &[u8], experiment: &Experiment) -> SimulationNumbers {
    let answer = second_simulate(table, experiment);
    match answer.number {
        0 => answer,
        _ => SimulationNumbers {
            state: experiment.start(),
            ..answer
        },
    }
}

const REFUSALS: [(&str, Simulates); 13] = [
    ("seed_0_is_the_fixed_one", seed_0_is_the_fixed_one),
    ("twenty_three_first", twenty_three_first),
    ("no_runs", no_runs),
    ("one_run_too_many", one_run_too_many),
    ("most_runs_refused", most_runs_refused),
    ("work_too_long", work_too_long),
    ("longest_work_refused", longest_work_refused),
    ("lo_and_hi_exchanged", lo_and_hi_exchanged),
    ("numbers_of_16_bits", numbers_of_16_bits),
    ("numbers_before_the_table", numbers_before_the_table),
    ("seed_before_the_table", seed_before_the_table),
    ("names_a_component", names_a_component),
    (
        "tells_the_state_after_a_refusal",
        tells_the_state_after_a_refusal,
    ),
];

/// Any class, since refused tables stand in all of them.
fn any(class: &str) -> bool {
    drawn(class) || class == "well-formed tables"
}

#[test]
fn each_wrong_refusal_is_found() {
    let mut missed = Vec::new();
    for (name, fault) in REFUSALS {
        let by_drawn = finder(any, with(fault), Reader::second());
        let by_stored = finder(stored, with(fault), Reader::second());
        println!("{name}: {by_drawn:?}, {by_stored:?}");
        let only_drawn = name == "numbers_of_16_bits";
        if by_drawn.is_none() || by_stored.is_none() && !only_drawn {
            missed.push(name);
        }
    }
    assert_eq!(missed, [""; 0]);
}

/// A run that differs from the simulated one is found where its choices are handed on.
#[test]
fn a_wrong_run_is_found_by_the_choices() {
    let second = Reader::second();
    let run = |table: &[u8], choices: &[u8], bytes: &mut [u8]| {
        let answer = (Reader::second().run)(table, choices, bytes);
        timed_network::RunNumbers {
            node: answer.node & 128,
            ..answer
        }
    };
    let wrong = Reader { run, ..second };
    assert!(finder(drawn, wrong, wrong).is_some());
}
