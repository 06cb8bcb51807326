//! Why a component takes one edge and none of the others: document 02's wish 7.
//!
//! The first and the last tick at which an edge may be taken are found by trying ticks
//! one after the other, not from its bounds as the schedule does.

use crate::schedule::{Clocks, Passage, Variables};
use crate::table::*;
use std::fmt;

/// The one reason of an edge from the location of a passage.
#[derive(Clone, Copy, Debug, PartialEq, Eq)]
pub enum Reason {
    /// "taken"
    Taken,
    /// "first data bound that fails", by its number within the edge.
    DataBound(u8),
    /// "no window of at least one tick's length"; "a window shorter than the budget is
    /// under the window reason" (wish 8).
    NoWindow,
    /// "ready later than the taken one"
    ReadyLater,
    /// "ready together with it but numbered higher"
    HigherNumber,
}

impl Reason {
    /// The second and the third byte of an edge: the number of the reason, and the
    /// data bound or 255.
    pub fn bytes(&self) -> [u8; 2] {
        match *self {
            Reason::Taken => [0, 255],
            Reason::DataBound(bound) => [1, bound],
            Reason::NoWindow => [2, 255],
            Reason::ReadyLater => [3, 255],
            Reason::HigherNumber => [4, 255],
        }
    }
}

/// As the vectors write it.
impl fmt::Display for Reason {
    fn fmt(&self, out: &mut fmt::Formatter<'_>) -> fmt::Result {
        match self {
            Reason::Taken => write!(out, "taken"),
            Reason::DataBound(bound) => write!(out, "data {bound}"),
            Reason::NoWindow => write!(out, "window"),
            Reason::ReadyLater => write!(out, "later"),
            Reason::HigherNumber => write!(out, "higher"),
        }
    }
}

/// A passage and what is told of the edges from its location.
#[derive(Clone, Debug, PartialEq, Eq)]
pub struct Reasons {
    /// Its place in the schedule.
    pub passage: usize,
    /// The edges by number, each with its reason.
    pub edges: Vec<(u8, Reason)>,
}

/// The answer to a question about a component and a tick of an accepted table. "An
/// absent component or a tick from H on is refused with 21".
pub fn reasons(
    table: &Table,
    passages: &[Passage],
    component: u32,
    tick: u32,
) -> Result<Reasons, Refusal> {
    if component as usize >= table.components.len() || tick >= u32::from(table.horizon) {
        return Err(Refusal::whole(21));
    }
    let named = |passage: &Passage| {
        u32::from(passage.component) == component && passage.entry <= tick && tick < passage.end
    };
    let number = passages.iter().position(named);
    let number = number.expect("at each tick below H a component is in a passage");
    Ok(Reasons {
        passage: number,
        edges: edges(table, &passages[number]),
    })
}

/// "for each edge from its location exactly one reason"
fn edges(table: &Table, passage: &Passage) -> Vec<(u8, Reason)> {
    let component = &table.components[usize::from(passage.component)];
    let from_there = |(_, edge): &(u8, &Edge)| edge.source == passage.location;
    (0..)
        .zip(&component.edges)
        .filter(from_there)
        .map(|(number, edge)| (number, reason(component, passage, number, edge)))
        .collect()
}

/// "Reasons are tried in that order, after \"taken\"".
fn reason(component: &Component, passage: &Passage, number: u8, edge: &Edge) -> Reason {
    if number == passage.edge {
        return Reason::Taken;
    }
    if let Some(bound) = first_failing(edge, &passage.variables) {
        return Reason::DataBound(bound);
    }
    let location = &component.locations[usize::from(passage.location)];
    let ready = match possible_ticks(location, edge, &passage.clocks) {
        Some((first, last)) if last > first && has_time(edge, first, last) => passage.entry + first,
        _ => return Reason::NoWindow,
    };
    if ready > passage.ready {
        return Reason::ReadyLater;
    }
    assert!(ready == passage.ready && number > passage.edge);
    Reason::HigherNumber
}

/// Whether the work of an edge that is begun at one tick can be done by another: its
/// budget of ticks is tried out one after the other.
fn has_time(edge: &Edge, first: u32, last: u32) -> bool {
    let mut ticks = first..last;
    (0..edge.budget).all(|_| ticks.next().is_some())
}

/// The number of the first data bound that fails. "Data bounds are read with the
/// values at entry."
fn first_failing(edge: &Edge, values: &Variables) -> Option<u8> {
    let fails = |bound: &DataBound| !bound.holds(values[usize::from(bound.variable)]);
    let first = edge.data_bounds.iter().position(fails)?;
    Some(first as u8)
}

/// "ready is the least tick, entry or later, at which invariant and clock bounds
/// hold; end is the last such tick", both counted from the entry. Ticks are tried one
/// after the other, from the entry on for the first, and back for the last from the
/// one past which the invariant is broken whatever its clock was.
fn possible_ticks(location: &Location, edge: &Edge, clocks: &Clocks) -> Option<(u32, u32)> {
    let possible = |passed: &u32| {
        let grown = |clock: u8| clocks[usize::from(clock)] + passed;
        let met = |bound: &ClockBound| within(bound, grown(bound.clock));
        grown(location.clock) <= location.bound.into() && edge.clock_bounds.iter().all(met)
    };
    let mut ticks = 0..=u32::from(location.bound);
    let first = ticks.clone().find(possible)?;
    let last = ticks.rfind(possible)?;
    Some((first, last))
}

/// Whether a clock's value is from the low to the high of a bound.
fn within(bound: &ClockBound, value: u32) -> bool {
    u32::from(bound.low) <= value && bound.high.is_none_or(|high| value <= high.into())
}
