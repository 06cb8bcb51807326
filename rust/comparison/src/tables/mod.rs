//! Well-formed tables made at random: each one passes checks 1 to 6. Those of
//! [`planned`] are made to pass 7 to 12 too, or to fail one of them narrowly.
//!
//! They are built as the second implementation's types, so that they can be
//! changed before `write_table` turns them into bytes.

pub mod apart;
pub mod bands;
pub mod budgets;
pub mod chains;
mod edges;
mod exact;
pub mod finishes;
pub mod planned;
pub mod refused_opening;
pub mod rings;
mod values;

pub use exact::{of_length, SHORTEST_EXACT};
pub use values::Values;

use crate::random::Random;
use edges::Own;
use reference::table::*;
use std::ops::RangeInclusive;

/// The bytes of a table's header, and of a component before its locations.
const HEAD: usize = 7;
/// The bytes of a location.
const LOCATION: usize = 3;
/// The most bytes that the bands take.
const BANDS: usize = MAX_CHANNELS as usize + 1;

/// How many of each thing a table has, and which numbers it has.
///
/// Ranges inside those of document 01 give well-formed tables. A range past
/// them gives a table that the reader has to refuse.
#[derive(Clone, Debug)]
pub struct Shape {
    /// Of the table.
    pub components: RangeInclusive<u8>,
    /// Of the table.
    pub channels: RangeInclusive<u8>,
    /// Of each component.
    pub locations: RangeInclusive<u8>,
    /// Of each component.
    pub clocks: RangeInclusive<u8>,
    /// Of each component.
    pub variables: RangeInclusive<u8>,
    /// Of each component.
    pub edges: RangeInclusive<u8>,
    /// Ticks, data and references.
    pub values: Values,
}

impl Shape {
    /// Everything that document 01 allows.
    pub fn any() -> Shape {
        Shape {
            components: 1..=MAX_COMPONENTS as u8,
            channels: 0..=MAX_CHANNELS,
            locations: 1..=MAX_LOCATIONS,
            clocks: 1..=MAX_CLOCKS as u8,
            variables: 0..=MAX_VARIABLES as u8,
            edges: 1..=MAX_EDGES,
            values: Values::Any,
        }
    }

    /// As few of each thing as a person would write: some 100 bytes.
    pub fn small() -> Shape {
        Shape {
            components: 1..=3,
            channels: 0..=3,
            locations: 1..=4,
            clocks: 1..=2,
            variables: 0..=2,
            edges: 1..=6,
            values: Values::Small,
        }
    }

    /// As many of each thing as document 01 allows.
    pub fn greatest() -> Shape {
        let any = Shape::any();
        let end = |range: RangeInclusive<u8>| *range.end()..=*range.end();
        Shape {
            components: end(any.components),
            channels: end(any.channels),
            locations: end(any.locations),
            clocks: end(any.clocks),
            variables: end(any.variables),
            edges: end(any.edges),
            values: Values::Any,
        }
    }

    /// The same shape with other numbers.
    pub fn with_values(self, values: Values) -> Shape {
        Shape { values, ..self }
    }
}

/// A table of this shape, at most 8,192 bytes long.
pub fn table(random: &mut Random, shape: &Shape) -> Table {
    let components = random.count(&shape.components);
    let channels = random.count(&shape.channels);
    let room = (LENGTHS.end() - HEAD - BANDS) / usize::from(components).max(1);
    let one = |_| component(random, shape, channels, room);
    let components = (0..components).map(one).collect();
    let (version, bands) = bands::drawn(random, channels);
    Table {
        version,
        bands,
        channels,
        horizon: shape.values.horizon(random),
        components,
    }
}

/// A component that takes no more bytes than there is room for.
fn component(random: &mut Random, shape: &Shape, channels: u8, room: usize) -> Component {
    let own = Own {
        locations: random.count(&shape.locations),
        clocks: random.count(&shape.clocks),
        variables: random.count(&shape.variables),
        channels,
        values: shape.values,
    };
    let edges = random.count(&shape.edges);
    let mut left = room - HEAD - LOCATION * usize::from(own.locations);
    let one = |later| {
        let kept = edges::SHORTEST * usize::from(later);
        let form = edges::form_within(random, &own, left - kept);
        left -= form.length();
        edges::edge(random, &own, form)
    };
    let edges = (0..edges).rev().map(one).collect();
    with_edges(random, &own, edges)
}

/// The component around its edges.
fn with_edges(random: &mut Random, own: &Own, edges: Vec<Edge>) -> Component {
    let location = |_| Location {
        clock: own.values.reference(random, own.clocks),
        bound: own.values.ticks(random),
    };
    let locations = (0..own.locations).map(location).collect();
    Component {
        initial: own.values.reference(random, own.locations),
        clocks: own.clocks,
        variables: own.variables,
        locations,
        edges,
    }
}

/// A component that waits: its first passage ends behind every horizon.
pub fn waiting() -> Component {
    let bound = MAX_TICKS;
    Component {
        initial: 0,
        clocks: 1,
        variables: 0,
        locations: vec![Location { clock: 0, bound }],
        edges: vec![Edge::default()],
    }
}

/// "Probe and hub", the worked example of document 01: 103 bytes.
pub const WORKED_EXAMPLE: [u8; 103] = [
    1, 0, 103, 2, 1, 0, 20, // header
    0, 38, 2, 0, 1, 0, 2, 0, 0, 5, 0, 0, 10, // the probe and its locations
    1, 0, 1, 0, 1, 0, 1, 0, 0, 3, 255, 255, 0, // its edge 0
    0, 1, 0, 1, 1, 0, 0, 0, 0, 8, 255, 255, // its edge 1
    0, 58, 3, 0, 1, 1, 3, 0, 0, 6, 0, 0, 10, 0, 0, 10, // the hub and its locations
    2, 0, 2, 0, 1, 0, 1, 0, 0, 2, 255, 255, 0, 1, // its edge 0
    0, 1, 0, 1, 1, 0, 1, 0, 0, 9, 255, 255, 0, 1, 0, 1, // its edge 1
    0, 2, 0, 1, 1, 0, 0, 0, 0, 9, 255, 255, // its edge 2
];
