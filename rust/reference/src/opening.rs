//! Checks 7 to 9 "at each opening", and where they stop.

use crate::edge_choice::Entry;
use crate::schedule::{taken, window, Passage, MAX_PASSAGES};
use crate::table::*;
use std::fmt;

/// Which component enters a location, when, and with which values.
#[derive(Clone, Copy, Debug, PartialEq, Eq)]
pub(crate) struct Arrival {
    pub(crate) component: u8,
    pub(crate) tick: u32,
    pub(crate) entry: Entry,
}

/// An opening that one of checks 7 to 9 refuses.
#[derive(Clone, Copy, Debug, PartialEq, Eq)]
pub struct RefusedOpening {
    /// How many passages were opened before: the number that this one would have in
    /// the schedule.
    pub passage: usize,
    /// The component whose passage would open.
    pub component: u8,
    /// The tick at which it enters the location.
    pub tick: u32,
    /// The location and the values there; clocks and variables that the component
    /// does not have are 0.
    pub entry: Entry,
    /// What is wrong.
    pub fault: OpeningFault,
}

/// Why a passage is not opened.
#[derive(Clone, Copy, Debug, PartialEq, Eq)]
pub enum OpeningFault {
    /// "7. Are fewer than 1,024 passages open or closed? Else 7."
    TooMany,
    /// "8. Is there a candidate? Else 8."
    NoCandidate(NoCandidate),
    /// "9. Does each update of the taken edge stay in range? Else 9."
    OutOfRange {
        /// The edge taken.
        edge: usize,
        /// Its first update that leaves the range, by its number.
        update: usize,
    },
}

/// The edges of a location, none of which is a candidate.
#[derive(Clone, Copy, Debug, Default, PartialEq, Eq)]
pub struct NoCandidate {
    /// Those that leave the location.
    pub leaving: usize,
    /// Those of them with a data bound that fails.
    pub blocked: usize,
    /// The others that leave it: none has a window with ready < end that is as long
    /// as its budget.
    pub windowless: usize,
}

impl RefusedOpening {
    /// The number of the check.
    pub fn number(&self) -> u8 {
        match self.fault {
            OpeningFault::TooMany => 7,
            OpeningFault::NoCandidate(_) => 8,
            OpeningFault::OutOfRange { .. } => 9,
        }
    }

    /// "for 4 to 9 the one read or opened".
    pub fn refusal(&self) -> Refusal {
        Refusal::new(self.number(), self.component)
    }
}

/// As the vectors write it: number, component, passage, tick, location, the four
/// clocks and the four variables with commas between them, then with 8 how many
/// edges leave, are blocked and have no window, else 0 three times, then with 9 the
/// edge and the update, else `-` twice.
impl fmt::Display for RefusedOpening {
    fn fmt(&self, out: &mut fmt::Formatter<'_>) -> fmt::Result {
        let [x0, x1, x2, x3] = self.entry.clocks;
        let [v0, v1, v2, v3] = self.entry.variables;
        let (number, component, location) = (self.number(), self.component, self.entry.location);
        write!(out, "{number} {component} {} {} ", self.passage, self.tick)?;
        write!(out, "{location} {x0},{x1},{x2},{x3} {v0},{v1},{v2},{v3} ")?;
        match self.fault {
            OpeningFault::TooMany => write!(out, "0 0 0 - -"),
            OpeningFault::NoCandidate(NoCandidate {
                leaving,
                blocked,
                windowless,
            }) => write!(out, "{leaving} {blocked} {windowless} - -"),
            OpeningFault::OutOfRange { edge, update } => write!(out, "0 0 0 {edge} {update}"),
        }
    }
}

/// Opens a passage: checks 7, 8 and 9 in this order. `count` passages are
/// open or closed already.
pub(crate) fn opened(
    table: &Table,
    arrival: &Arrival,
    count: usize,
) -> Result<Passage, RefusedOpening> {
    let Arrival {
        component,
        tick,
        entry,
    } = *arrival;
    let refused = |fault| RefusedOpening {
        passage: count,
        component,
        tick,
        entry,
        fault,
    };
    if count >= MAX_PASSAGES {
        return Err(refused(OpeningFault::TooMany));
    }
    let own = &table.components[usize::from(component)];
    let Some((number, window)) = taken(own, &entry) else {
        let edges = no_candidate(own, &entry);
        return Err(refused(OpeningFault::NoCandidate(edges)));
    };
    let edge = &own.edges[number];
    if let Err(update) = edge.updated_in_order(&entry.variables) {
        let edge = number;
        return Err(refused(OpeningFault::OutOfRange { edge, update }));
    }
    Ok(Passage {
        component,
        edge: number as u8,
        location: entry.location,
        entry: tick,
        ready: tick + window.ready,
        end: tick + window.end,
        message: match edge.action {
            Action::Send(channel) => Some(channel),
            _ => None,
        },
        clocks: entry.clocks,
        variables: entry.variables,
    })
}

/// Counts the edges that leave the location entered, each by what keeps it from
/// being a candidate: a data bound first, then the window.
fn no_candidate(component: &Component, entry: &Entry) -> NoCandidate {
    let location = &component.locations[usize::from(entry.location)];
    let mut count = NoCandidate::default();
    for edge in &component.edges {
        if edge.source != entry.location {
            continue;
        }
        count.leaving += 1;
        if !edge.data_bounds_hold(&entry.variables) {
            count.blocked += 1;
        } else if window(location, edge, &entry.clocks).is_none_or(|w| !w.is_long_enough(edge)) {
            count.windowless += 1;
        }
    }
    count
}
