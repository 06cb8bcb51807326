//! The edge that a component takes at an entry, and how many edges are looked
//! at for it: document 02's wish 5.
//!
//! The search goes over all edges and stops nowhere; the number is taken from
//! the wish's sentence.

use crate::schedule::{candidate, taken, Clocks, Variables, Window};
use crate::table::*;

/// A location that a component enters, with its values there. Clocks and
/// variables that it does not have are not read.
#[derive(Clone, Copy, Debug, PartialEq, Eq)]
pub struct Entry {
    /// The location.
    pub location: u8,
    /// The clocks at entry.
    pub clocks: Clocks,
    /// The variables at entry.
    pub variables: Variables,
}

/// What is chosen at an entry.
#[derive(Clone, Copy, Debug, PartialEq, Eq)]
pub struct EdgeChoice {
    /// The edge taken and its window, if there is a candidate.
    pub taken: Option<(usize, Window)>,
    /// "how many edges it looked at"
    pub looked: usize,
}

/// The choice of a component of the table. A component that is absent has no
/// edges, and from a location that is absent none leaves.
pub fn edge_choice(table: &Table, component: u8, entry: &Entry) -> EdgeChoice {
    match table.components.get(usize::from(component)) {
        Some(component) => EdgeChoice {
            taken: taken(component, entry),
            looked: looked(component, entry),
        },
        None => EdgeChoice {
            taken: None,
            looked: 0,
        },
    }
}

/// "k + 1 for the lowest such edge k, all of the component's edges if there is
/// none", where such an edge "is ready with no delay and is a candidate".
fn looked(component: &Component, entry: &Entry) -> usize {
    let at_once = |edge: &Edge| {
        let window = candidate(component, edge, entry);
        window.is_some_and(|window| window.ready == 0)
    };
    match component.edges.iter().position(at_once) {
        Some(k) => k + 1,
        None => component.edges.len(),
    }
}
