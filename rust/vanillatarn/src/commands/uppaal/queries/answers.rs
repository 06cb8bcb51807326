//! What the tool would answer to queries of a file, found by going through the states of the
//! stored texts with a reader that knows nothing of tables.

use std::collections::HashSet;
use xta::network::{moves, start, Move, State};
use xta::{Condition, Sum, System};

/// The network of a text of the corpus.
fn stored(name: &str) -> System {
    let folder = concat!(env!("CARGO_MANIFEST_DIR"), "/../../corpus");
    let text = std::fs::read(format!("{folder}/{name}.xta")).unwrap();
    xta::read(&text).unwrap()
}

/// The network of a table of the corpus that has no stored text.
fn written(name: &str) -> System {
    let folder = concat!(env!("CARGO_MANIFEST_DIR"), "/../../corpus");
    let bytes = std::fs::read(format!("{folder}/{name}.bin")).unwrap();
    let table = reference::table::read_table(&bytes).unwrap();
    xta::read(reference::uppaal::text(&table).as_bytes()).unwrap()
}

/// The same network where a delay is half a tick: each number against which a clock is held
/// twice as great.
fn in_halves(mut system: System) -> System {
    for process in &mut system.processes {
        for location in &mut process.locations {
            location.invariant = doubled(&location.invariant);
        }
        for transition in &mut process.transitions {
            transition.guard = doubled(&transition.guard);
        }
    }
    system
}

fn doubled(condition: &Condition) -> Condition {
    match condition {
        Condition::Clock(clock, relation, Sum::Number(bound)) => {
            Condition::Clock(*clock, *relation, Sum::Number(2 * bound))
        }
        Condition::And(left, right) => {
            Condition::And(Box::new(doubled(left)), Box::new(doubled(right)))
        }
        Condition::Always(_) | Condition::Numbers(..) => condition.clone(),
        _ => panic!("no such condition is written"),
    }
}

/// All states that are reached.
fn reached(system: &System) -> HashSet<State> {
    let first = start(system).unwrap().unwrap();
    let mut found = HashSet::from([first.clone()]);
    let mut open = vec![first];
    while let Some(state) = open.pop() {
        for (_, next) in moves(system, &state).unwrap() {
            if found.insert(next.clone()) {
                open.push(next);
            }
        }
    }
    found
}

/// Whether nothing but delays can be done from a state on: `deadlock`.
fn is_stuck(system: &System, state: &State) -> bool {
    let mut state = state.clone();
    loop {
        let found = moves(system, &state).unwrap();
        let (delays, steps): (Vec<_>, Vec<_>) = found
            .into_iter()
            .partition(|(step, _)| *step == Move::Delay);
        if !steps.is_empty() {
            return false;
        }
        match delays.into_iter().next() {
            Some((_, later)) => state = later,
            None => return true,
        }
    }
}

/// The least value of clock 0 of process 0 in a state that is stuck.
fn stuck_from(system: &System) -> Option<u32> {
    let states = reached(system);
    let stuck = states.iter().filter(|state| is_stuck(system, state));
    stuck.map(|state| state[0].clocks[0]).min()
}

/// `A[] (deadlock imply P0.x0 > 4)` has one answer at whole ticks and between them, yes.
/// `A[] (deadlock imply P0.x0 >= 5)` has two: half a tick behind tick 4 the network is stuck.
#[test]
fn stuck_between_two_ticks() {
    let system = stored("accepted_export_stuck_between_ticks");
    assert_eq!(stuck_from(&system), Some(5));
    assert_eq!(stuck_from(&in_halves(system)), Some(9));
}

/// `A[] not deadlock` does not ask that time goes on: two probes go round at tick 60, and no
/// state is stuck. On no path does a clock come past tick 60.
#[test]
fn steps_for_ever_at_one_tick() {
    let system = written("accepted_message_chooses_location");
    assert_eq!(stuck_from(&system), None);
    let states = reached(&system);
    let latest = states.iter().map(|state| state[0].clocks[0]).max();
    assert_eq!(latest, Some(60));
}

/// `A[] not deadlock` is not so of the worked example. On the path on which every message is
/// received the hub counts 32,767 of them; behind the next one no edge can be taken.
#[test]
fn a_counter_that_is_full() {
    let system = stored("probe_and_hub");
    let mut state = start(&system).unwrap().unwrap();
    let (mut ticks, mut messages) = (0, 0);
    while !is_stuck(&system, &state) {
        let found = moves(&system, &state).unwrap();
        let joint = |step: &Move| matches!(step, Move::Joint { .. });
        let chosen = found.iter().find(|(step, _)| joint(step));
        let chosen = chosen.or(found.iter().find(|(step, _)| *step != Move::Delay));
        let (step, next) = chosen.unwrap_or(&found[0]).clone();
        ticks += u32::from(step == Move::Delay);
        messages += u32::from(joint(&step));
        state = next;
    }
    assert_eq!(state[1].variables, [32767]);
    // Each round has ten ticks and one message; in the last one it is not counted.
    assert_eq!(messages, 32768);
    assert_eq!(ticks, 327_680);
}
