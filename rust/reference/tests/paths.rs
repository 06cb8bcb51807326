//! Every run of an accepted table takes a path of the network that passes as
//! the schedule says, and its observations are those on the path, with the finish
//! ticks of the steps in.

mod common;

use common::*;
use reference::checks::{check_messages, verdict};
use reference::network::*;
use reference::program::program;
use reference::run::*;
use reference::schedule::Passage;
use reference::table::*;

/// Compares a run with its path; what is wrong, if anything is.
fn compare(table: &Table, passages: &[Passage], run: &Run) -> Result<(), String> {
    let late = run.outcome.end == End::Late;
    let reached = run.outcome.tick - u32::from(late);
    let steps = path_of_run(table, passages, &run.log, reached);
    let trace = trace(table, &steps).map_err(|at| format!("step {at} of {steps:?}"))?;
    assert_eq!(trace.state.tick, reached);
    if !passes_as_scheduled(passages, &trace) {
        return Err(format!("not as scheduled: {trace:?}"));
    }
    for component in 0..table.components.len() as u8 {
        let on_path = observations_on(table, passages, &trace, component);
        let written = written_by(run, component);
        let due = on_path.iter().filter(|o| o.tick < reached).count();
        if !on_path.starts_with(&written) || written.len() < due {
            return Err(format!("node {component}: {written:?}, {on_path:?}"));
        }
        let (found, steps_in) = (finishes_of(run, component), steps_in(&steps, component));
        if !steps_in.starts_with(&found) {
            return Err(format!("node {component}: {found:?}, {steps_in:?}"));
        }
    }
    Ok(())
}

/// The finish ticks in the observations of one node.
fn finishes_of(run: &Run, node: u8) -> Vec<u32> {
    let own = run.observations.iter().filter(|o| o[0] == node);
    let tick = |o: &[u8; OBSERVATION]| u32::from_be_bytes(*o.last_chunk().unwrap());
    own.map(tick).collect()
}

/// The number for no work, then the ticks at which a component steps in.
fn steps_in(steps: &[Step], own: u8) -> Vec<u32> {
    let (mut ticks, mut tick) = (vec![NO_WORK], 0);
    for step in steps {
        let steps_in = match *step {
            Step::Tick => {
                tick += 1;
                false
            }
            Step::Alone { component, .. } => component == own,
            Step::Joint {
                sender, receiver, ..
            } => sender == own || receiver == own,
            Step::Out { .. } => false,
        };
        ticks.extend(steps_in.then_some(tick));
    }
    ticks
}

/// The observations of one node in a run.
fn written_by(run: &Run, node: u8) -> Vec<Observation> {
    let own = run.observations.iter().filter(|o| o[0] == node);
    own.map(observation).collect()
}

fn observation(bytes: &[u8; OBSERVATION]) -> Observation {
    let four = |at: usize| u32::from_be_bytes(bytes[at..at + 4].try_into().unwrap());
    let two = |at: usize| i16::from_be_bytes(bytes[at..at + 2].try_into().unwrap());
    assert_eq!(bytes[3], 0);
    Observation {
        edge: bytes[1],
        location: bytes[2],
        tick: four(4),
        clocks: [four(8), four(12), four(16), four(20)],
        variables: [two(24), two(26), two(28), two(30)],
    }
}

/// Choices that are mostly allowed and mostly in time.
fn any_choices(mut machine: Machine, numbers: &mut Numbers) -> Vec<u8> {
    let nodes = machine.nodes().len();
    let (lazy, careless) = (2 + numbers.below(12), 1 + numbers.below(300));
    let mut choices = Vec::new();
    for _ in 0..30_000 {
        let ticking = numbers.below(lazy) == 0;
        let choice = if ticking {
            TICK
        } else {
            numbers.below(nodes) as u8
        };
        if ticking && makes_late(&machine) && numbers.below(careless) > 0 {
            continue;
        }
        match machine.choose(choice) {
            Some(happening) => {
                choices.push(choice);
                let late = matches!(happening, Happening::Ticked { late: Some(_) });
                if late || machine.tick() == machine.horizon() {
                    break;
                }
            }
            None if numbers.below(3000) == 0 => {
                choices.push(choice);
                break;
            }
            None => {}
        }
    }
    choices
}

fn makes_late(machine: &Machine) -> bool {
    let after = machine.clone().choose(TICK);
    matches!(after, Some(Happening::Ticked { late: Some(_) }))
}

/// A run with random choices.
fn any_run(table: &Table, passages: &[Passage], numbers: &mut Numbers) -> Run {
    let bytes = program(table);
    let machine = Machine::new(table, passages, &bytes).unwrap();
    let mut choices = any_choices(machine, numbers);
    if numbers.below(3) == 0 {
        choices.truncate(numbers.below(choices.len() + 1));
    }
    run(table, passages, &bytes, &choices).unwrap()
}

#[test]
fn random_runs_of_accepted_tables() {
    let mut numbers = Numbers(4101842887655102017);
    let (mut ends, mut messages, mut observations) = ([0; 4], 0, 0);
    for_each_schedule(60_000, |table, passages| {
        if table.horizon > 300 || check_messages(table, passages).is_err() {
            return;
        }
        let run = any_run(table, passages, &mut numbers);
        compare(table, passages, &run).unwrap();
        ends[run.outcome.end as usize] += 1;
        let is_message = |event: &&Event| matches!(event, Event::Message { .. });
        messages += run.log.iter().filter(is_message).count();
        observations += run.observations.len();
    });
    println!("ends {ends:?}, {messages} messages, {observations} observations");
    assert!(ends.iter().all(|count| *count > 10));
    assert!(messages > 500 && observations > 5000);
}

/// Without checks 10 to 12 there are runs that take no such path, so the
/// comparison can fail.
#[test]
fn random_runs_of_refused_tables() {
    let mut numbers = Numbers(1181783497276652981);
    let mut failures = [0; 18];
    for_each_schedule(60_000, |table, passages| {
        let Err(refusal) = check_messages(table, passages) else {
            return;
        };
        if table.horizon <= 300 {
            let run = any_run(table, passages, &mut numbers);
            let failed = compare(table, passages, &run).is_err();
            failures[refusal.number as usize] += u32::from(failed);
        }
    });
    println!("failures by refusal: {failures:?}");
    // A send that nobody hears, 11, cannot finish: such a run goes no other way.
    assert!([10, 15, 16, 17].iter().all(|number| failures[*number] > 0));
}

#[test]
fn runs_of_the_vectors() {
    let mut count = 0;
    for vector in vectors().iter().filter(|v| v.request[0] == "run") {
        let Ok((table, passages)) = verdict(&unhex(&vector.request[1])) else {
            continue;
        };
        let choices = unhex(&vector.request[2]);
        let run = run(&table, &passages, &program(&table), &choices).unwrap();
        compare(&table, &passages, &run).unwrap();
        count += 1;
    }
    println!("{count} runs");
    assert!(count > 50);
}
