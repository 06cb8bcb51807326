//! All states of a network up to a tick.

use crate::network::{moves, start, Move, OutOfRange, State};
use crate::system::System;
use std::collections::HashSet;

/// What was found.
#[derive(Clone, Copy, Debug, Default, PartialEq, Eq)]
pub struct Explored {
    /// The states, those of different ticks counted apart.
    pub states: usize,
    /// The delays from these states; none are taken from the last tick.
    pub delays: usize,
    /// The transitions taken alone.
    pub alone: usize,
    /// Those taken by two.
    pub joint: usize,
}

/// Explores all states that are reached with at most so many delays.
pub fn explore(system: &System, ticks: u32) -> Result<Explored, OutOfRange> {
    let mut found = Explored::default();
    let mut at_tick: HashSet<State> = start(system)?.into_iter().collect();
    for left in (0..=ticks).rev() {
        let mut later = HashSet::new();
        let mut open: Vec<State> = at_tick.iter().cloned().collect();
        while let Some(state) = open.pop() {
            for (step, next) in moves(system, &state)? {
                match step {
                    Move::Delay if left == 0 => continue,
                    Move::Delay => {
                        found.delays += 1;
                        later.insert(next);
                        continue;
                    }
                    Move::Alone { .. } => found.alone += 1,
                    Move::Joint { .. } => found.joint += 1,
                }
                if at_tick.insert(next.clone()) {
                    open.push(next);
                }
            }
        }
        found.states += at_tick.len();
        at_tick = later;
    }
    Ok(found)
}
