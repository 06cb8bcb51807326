//! Holds a network that was read from a text to the network of a table: "its paths
//! [are] exactly those of the table's network that enter no location with its invariant
//! already broken" (document 02, wish 12).
//!
//! Both are explored side by side. Each state of the table's network is seen as a state
//! of the text's by the names that a text has: process `P0`, location `L0`, waiting
//! location `W0_c1` of edge 0 with a message on channel 1 and `W0` without a message,
//! clock `x0`, variable `v0`. From each pair of states that are reached the steps of the
//! one and the moves of the other have to pair off, each with the same processes and
//! with states that are seen as the same. Then so do the paths, step by step.
#![forbid(unsafe_code)]
#![warn(missing_docs)]

mod steps;
mod view;

use reference::network::{start, State};
use reference::table::Table;
use std::collections::HashSet;
use std::fmt;
use steps::{moves_of_table, moves_of_text, Kind};
use view::Views;
use xta::network;
use xta::System;

/// How far two networks are explored.
#[derive(Clone, Copy, Debug, PartialEq, Eq)]
pub struct Reach {
    /// At most so many delays are on a way.
    pub ticks: u32,
    /// No more states than these are looked at.
    pub states: usize,
}

/// What was compared.
#[derive(Clone, Copy, Debug, Default, PartialEq, Eq)]
pub struct Compared {
    /// The states of the table's network that were looked at.
    pub states: usize,
    /// The delays from them.
    pub delays: usize,
    /// The steps in and out of one process alone.
    pub alone: usize,
    /// The steps in of two processes.
    pub joint: usize,
    /// The steps out that enter a location with its invariant broken, which the text's
    /// network has not.
    pub broken: usize,
    /// Whether more states than these were reached.
    pub cut: bool,
}

/// Where two networks differ.
#[derive(Clone, Debug, PartialEq, Eq)]
pub enum Difference {
    /// The text has no such process, location, clock or variable, or others besides.
    Names(String),
    /// They start differently.
    Start,
    /// A state from which one of them has a move that the other has not: the tick, and
    /// how many moves each has.
    Moves {
        /// The tick of the state.
        tick: u32,
        /// The moves that only the table's network has.
        table: Vec<String>,
        /// The moves that only the text's network has.
        text: Vec<String>,
    },
    /// A transition of the text leaves the range of a variable.
    OutOfRange,
}

impl fmt::Display for Difference {
    fn fmt(&self, out: &mut fmt::Formatter<'_>) -> fmt::Result {
        match self {
            Difference::Names(names) => write!(out, "other names: {names}"),
            Difference::Start => write!(out, "another start"),
            Difference::Moves { tick, table, text } => {
                write!(
                    out,
                    "tick {tick}: of the table {table:?}, of the text {text:?}"
                )
            }
            Difference::OutOfRange => write!(out, "{}", network::OutOfRange),
        }
    }
}

impl From<network::OutOfRange> for Difference {
    fn from(_: network::OutOfRange) -> Difference {
        Difference::OutOfRange
    }
}

/// Explores both networks side by side.
pub fn same_paths(table: &Table, system: &System, reach: Reach) -> Result<Compared, Difference> {
    let views = Views::new(table, system).map_err(Difference::Names)?;
    let first = start(table);
    let view = views.of(&first).ok_or(Difference::Start)?;
    if network::start(system)? != Some(view) {
        return Err(Difference::Start);
    }
    let mut compared = Compared::default();
    let mut seen: HashSet<Vec<u8>> = HashSet::from([key(&first)]);
    let mut open = vec![first];
    while let Some(state) = open.pop() {
        if compared.states == reach.states {
            compared.cut = true;
            break;
        }
        for next in pair_off(table, system, &views, &state, &mut compared)? {
            if next.tick <= reach.ticks && seen.insert(key(&next)) {
                open.push(next);
            }
        }
    }
    Ok(compared)
}

/// Holds the moves from one state to each other; the states that they lead to.
fn pair_off(
    table: &Table,
    system: &System,
    views: &Views,
    state: &State,
    compared: &mut Compared,
) -> Result<Vec<State>, Difference> {
    let view = views.of(state).ok_or(Difference::Start)?;
    let mut text = moves_of_text(system, &view)?;
    let (steps, broken) = moves_of_table(table, state);
    let mut only_table = Vec::new();
    let mut next = Vec::new();
    for (kind, reached) in steps {
        let seen = views.of(&reached);
        let same =
            |other: &(Kind, network::State)| other.0 == kind && Some(&other.1) == seen.as_ref();
        match text.iter().position(same) {
            Some(place) => drop(text.swap_remove(place)),
            None => only_table.push(format!("{kind:?} to {seen:?}")),
        }
        match kind {
            Kind::Delay => compared.delays += 1,
            Kind::Alone(_) => compared.alone += 1,
            Kind::Joint(..) => compared.joint += 1,
        }
        next.push(reached);
    }
    compared.states += 1;
    compared.broken += broken;
    if only_table.is_empty() && text.is_empty() {
        return Ok(next);
    }
    let told = |(kind, reached): &(Kind, network::State)| format!("{kind:?} to {reached:?}");
    Err(Difference::Moves {
        tick: state.tick,
        table: only_table,
        text: text.iter().map(told).collect(),
    })
}

/// A state as bytes, for a set of those that were seen.
fn key(state: &State) -> Vec<u8> {
    let mut key = state.tick.to_be_bytes().to_vec();
    for place in &state.places {
        key.push(place.location);
        key.extend(place.entry.to_be_bytes());
        key.extend(place.clocks.iter().flat_map(|clock| clock.to_be_bytes()));
        key.extend(place.variables.iter().flat_map(|value| value.to_be_bytes()));
        match place.waiting {
            None => key.push(u8::MAX),
            Some(waiting) => key.extend([waiting.edge, waiting.message.unwrap_or(u8::MAX)]),
        }
    }
    key
}
