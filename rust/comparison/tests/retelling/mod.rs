//! Reasons told anew: the second implementation's, with the bytes of some edges changed.

use comparison::readers::second_reasons;
use reference::checks::verdict;
use reference::schedule::{window, Passage};
use reference::table::{Component, Edge};
use timed_network::{Told, Verdict, REASON};

/// An edge from the location of a passage, and what it may be told by.
pub struct ToldEdge<'a> {
    pub component: &'a Component,
    pub passage: &'a Passage,
    pub edge: &'a Edge,
    pub number: u8,
}

impl ToldEdge<'_> {
    /// The first data bound that fails.
    pub fn failing(&self) -> Option<usize> {
        let values = &self.passage.variables;
        let mut bounds = self.edge.data_bounds.iter();
        bounds.position(|bound| !bound.holds(values[usize::from(bound.variable)]))
    }

    /// Ready and end of its window, if it has a tick.
    pub fn window(&self) -> Option<(u32, u32)> {
        let location = &self.component.locations[usize::from(self.passage.location)];
        let window = window(location, self.edge, &self.passage.clocks)?;
        let entry = self.passage.entry;
        Some((entry + window.ready, entry + window.end))
    }

    pub fn taken(&self) -> bool {
        self.number == self.passage.edge
    }
}

/// The second implementation's answer with the two bytes behind each edge made anew.
pub fn retold(
    (table, component, tick): (&[u8], u32, u32),
    told: &mut [u8],
    bytes: fn(&ToldEdge) -> Option<[u8; 2]>,
) -> Told {
    let answer = second_reasons(table, component, tick, told);
    let Ok((read, passages)) = verdict(table) else {
        return answer;
    };
    if answer.verdict != Verdict::Accepted {
        return answer;
    }
    let passage = &passages[answer.passage as usize];
    let component = &read.components[component as usize];
    for told in told.chunks_exact_mut(REASON).take(answer.size) {
        let number = told[0];
        let edge = &component.edges[usize::from(number)];
        let told_edge = ToldEdge {
            component,
            passage,
            edge,
            number,
        };
        if let Some(bytes) = bytes(&told_edge) {
            told[1..].copy_from_slice(&bytes);
        }
    }
    answer
}
