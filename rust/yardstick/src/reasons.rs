//! Why an edge is taken: the passages of one component from its first on, then each
//! edge from the location of the one that a tick names.

use crate::opening::{first_failing, updated, window_read};
use crate::schedule::{grown, Passage};
use crate::table::*;
use crate::NONE;

/// The bytes of an edge: its number, the number of its reason, and the data bound or
/// [`NONE`].
pub const REASON: usize = 3;

/// What is written by [`crate::Yardstick::reasons`].
#[derive(Clone, Copy, Debug, PartialEq, Eq)]
pub struct Told {
    /// The place of the passage in the schedule.
    pub passage: u32,
    /// How many edges are told.
    pub size: usize,
}

/// A passage with the values at its entry.
pub(crate) struct Visit<'a> {
    /// Its place in the schedule.
    pub(crate) row: usize,
    passage: &'a Passage,
    clocks: Clocks,
    variables: Variables,
}

/// The passage of a component that has entered by a tick below the horizon and not
/// ended. The first passage of each component stands at its own number.
pub(crate) fn visit<'a>(
    component: &Component,
    bytes: &[u8],
    passages: &'a [Passage],
    (number, tick): (usize, u32),
) -> Visit<'a> {
    let mut visit = Visit {
        row: number,
        passage: &passages[number],
        clocks: [0; CLOCKS],
        variables: [0; VARIABLES],
    };
    while visit.passage.end <= tick {
        let Passage {
            edge,
            entry,
            end,
            next,
            ..
        } = *visit.passage;
        let edge = component.edge(edge);
        visit.clocks = grown(&visit.clocks, (end - entry) as i32, edge.mask);
        if edge.kind == Kind::Internal && edge.items > 0 {
            let values = updated(edge, bytes, &visit.variables);
            visit.variables = values.unwrap_or(visit.variables);
        }
        visit.row = next.into();
        visit.passage = &passages[visit.row];
    }
    visit
}

impl Visit<'_> {
    /// The edges from its location, as bits.
    pub(crate) fn edges(&self, component: &Component) -> u32 {
        component.location(self.passage.location).from
    }

    /// Writes the bytes of these edges.
    pub(crate) fn write(&self, component: &Component, bytes: &[u8], told: &mut [u8]) {
        let edges = Bits(self.edges(component));
        for (told, number) in told.as_chunks_mut::<REASON>().0.iter_mut().zip(edges) {
            let (reason, bound) = self.reason(component, bytes, number);
            *told = [number as u8, reason, bound];
        }
    }

    /// The reason of an edge by its number, and the data bound.
    fn reason(&self, component: &Component, bytes: &[u8], number: usize) -> (u8, u8) {
        let taken = usize::from(self.passage.edge);
        if number == taken {
            return (0, NONE);
        }
        let edge = &component.edges[number % EDGES];
        if let Some(bound) = first_failing(edge, bytes, &self.variables) {
            return (1, bound);
        }
        let location = component.location(self.passage.location);
        let (ready, end) = window_read(location, edge, bytes, &self.clocks);
        let least = (self.passage.ready - self.passage.entry) as i32;
        let reason = match () {
            () if !edge.has_time(ready, end) => 2,
            () if ready > least => 3,
            () => 4,
        };
        (reason, NONE)
    }
}
