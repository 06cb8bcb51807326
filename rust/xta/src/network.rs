//! The states of a network and its moves, at whole ticks, by the tool's published
//! semantics.
//!
//! A delay lets all clocks grow by 1. A transition without a channel is taken alone; two
//! of different processes on one channel, of which one sends, are taken together, the
//! changes of the sender first. Each move leads to states alone in which every process
//! stands where its invariant holds.

use crate::system::*;
use std::error::Error;
use std::fmt;

/// Where a process stands, with its clocks and variables.
#[derive(Clone, Debug, PartialEq, Eq, Hash, PartialOrd, Ord)]
pub struct Stand {
    /// The number of its location.
    pub location: usize,
    /// What its clocks are worth.
    pub clocks: Vec<u32>,
    /// What its variables are worth.
    pub variables: Vec<i32>,
}

/// The state of a network: where each process stands.
pub type State = Vec<Stand>;

/// A move of a network.
#[derive(Clone, Copy, Debug, PartialEq, Eq, Hash, PartialOrd, Ord)]
pub enum Move {
    /// A tick passes.
    Delay,
    /// A process takes a transition alone.
    Alone {
        /// The number of the process.
        process: usize,
        /// The number of its transition.
        transition: usize,
    },
    /// Two processes take a transition each, on one channel.
    Joint {
        /// The process that sends, and its transition.
        sender: (usize, usize),
        /// The one that receives, and its transition.
        receiver: (usize, usize),
    },
}

/// A number leaves the range of its variable, or 32 bits, or is divided by 0. Newer
/// versions of the tool stop there with an error, older ones leave the state out.
#[derive(Clone, Copy, Debug, PartialEq, Eq)]
pub struct OutOfRange;

impl fmt::Display for OutOfRange {
    fn fmt(&self, out: &mut fmt::Formatter<'_>) -> fmt::Result {
        write!(out, "a number is out of its range")
    }
}

impl Error for OutOfRange {}

/// The state that a network starts in: clocks and variables are 0. There is none where
/// an invariant does not hold then.
pub fn start(system: &System) -> Result<Option<State>, OutOfRange> {
    let stand = |process: &Process| Stand {
        location: process.initial,
        clocks: vec![0; process.clocks.len()],
        variables: vec![0; process.variables.len()],
    };
    let state: State = system.processes.iter().map(stand).collect();
    Ok(all_stand(system, &state)?.then_some(state))
}

/// All moves from a state, each with the state that it leads to.
pub fn moves(system: &System, state: &State) -> Result<Vec<(Move, State)>, OutOfRange> {
    let mut found = Vec::new();
    if let Some(later) = delayed(system, state)? {
        found.push((Move::Delay, later));
    }
    let enabled = enabled(system, state)?;
    for &(process, transition) in &enabled {
        let taken = &system.processes[process].transitions[transition];
        match taken.sync {
            None => {
                let step = Move::Alone {
                    process,
                    transition,
                };
                add(system, state, step, &[(process, transition)], &mut found)?;
            }
            Some(sync) if sync.sends => {
                let others = enabled.iter().filter(|other| other.0 != process);
                for &receiver in others.filter(|other| receives(system, **other, sync.channel)) {
                    let sender = (process, transition);
                    let step = Move::Joint { sender, receiver };
                    add(system, state, step, &[sender, receiver], &mut found)?;
                }
            }
            Some(_) => {}
        }
    }
    Ok(found)
}

/// The state one tick later, if all invariants hold there.
pub fn delayed(system: &System, state: &State) -> Result<Option<State>, OutOfRange> {
    let mut later = state.clone();
    for clock in later.iter_mut().flat_map(|stand| &mut stand.clocks) {
        *clock += 1;
    }
    Ok(all_stand(system, &later)?.then_some(later))
}

/// The transitions whose source and guard fit, as process and number.
fn enabled(system: &System, state: &State) -> Result<Vec<(usize, usize)>, OutOfRange> {
    let mut enabled = Vec::new();
    for (number, (process, stand)) in system.processes.iter().zip(state).enumerate() {
        for (place, transition) in process.transitions.iter().enumerate() {
            if transition.source == stand.location && holds(&transition.guard, stand)? {
                enabled.push((number, place));
            }
        }
    }
    Ok(enabled)
}

fn receives(system: &System, (process, transition): (usize, usize), channel: usize) -> bool {
    let sync = system.processes[process].transitions[transition].sync;
    sync == Some(Sync {
        channel,
        sends: false,
    })
}

/// Takes transitions one after the other and keeps the state that they lead to, if all
/// invariants hold there.
fn add(
    system: &System,
    state: &State,
    step: Move,
    taken: &[(usize, usize)],
    found: &mut Vec<(Move, State)>,
) -> Result<(), OutOfRange> {
    let mut next = state.clone();
    for &(number, transition) in taken {
        let process = &system.processes[number];
        take(process, transition, &mut next[number])?;
    }
    if all_stand(system, &next)? {
        found.push((step, next));
    }
    Ok(())
}

fn take(process: &Process, transition: usize, stand: &mut Stand) -> Result<(), OutOfRange> {
    let transition = &process.transitions[transition];
    for assignment in &transition.assignments {
        match assignment {
            Assignment::Clock(clock, sum) => {
                let value = value(sum, &stand.variables)?;
                stand.clocks[*clock] = value.try_into().map_err(|_| OutOfRange)?;
            }
            Assignment::Variable(number, sum) => {
                let value = value(sum, &stand.variables)?;
                let Variable {
                    least, greatest, ..
                } = process.variables[*number];
                if value < least || greatest < value {
                    return Err(OutOfRange);
                }
                stand.variables[*number] = value;
            }
        }
    }
    stand.location = transition.target;
    Ok(())
}

/// Whether each process stands where its invariant holds.
fn all_stand(system: &System, state: &State) -> Result<bool, OutOfRange> {
    for (process, stand) in system.processes.iter().zip(state) {
        if !holds(&process.locations[stand.location].invariant, stand)? {
            return Ok(false);
        }
    }
    Ok(true)
}

/// Whether a condition holds.
fn holds(condition: &Condition, stand: &Stand) -> Result<bool, OutOfRange> {
    Ok(match condition {
        Condition::Always(truth) => *truth,
        Condition::Clock(clock, relation, bound) => {
            let bound = value(bound, &stand.variables)?;
            relation.holds(stand.clocks[*clock].into(), bound.into())
        }
        Condition::Numbers(left, relation, right) => {
            let left = value(left, &stand.variables)?;
            relation.holds(left.into(), value(right, &stand.variables)?.into())
        }
        Condition::Not(inside) => !holds(inside, stand)?,
        Condition::And(left, right) => holds(left, stand)? && holds(right, stand)?,
        Condition::Or(left, right) => holds(left, stand)? || holds(right, stand)?,
    })
}

/// What a number is worth, in 32 bits.
pub(crate) fn value(sum: &Sum, variables: &[i32]) -> Result<i32, OutOfRange> {
    match sum {
        Sum::Number(number) => Ok(*number),
        Sum::Variable(variable) => Ok(variables[*variable]),
        Sum::Minus(inside) => value(inside, variables)?.checked_neg().ok_or(OutOfRange),
        Sum::Pair(left, sign, right) => {
            let (left, right) = (value(left, variables)?, value(right, variables)?);
            let result = match sign {
                Arithmetic::Add => left.checked_add(right),
                Arithmetic::Subtract => left.checked_sub(right),
                Arithmetic::Multiply => left.checked_mul(right),
                Arithmetic::Divide => left.checked_div(right),
                Arithmetic::Rest => left.checked_rem(right),
            };
            result.ok_or(OutOfRange)
        }
    }
}
