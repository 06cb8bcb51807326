//! Passage and schedule: windows, candidates, and the list of passages, each
//! opened with checks 7 to 9.

use crate::edge_choice::Entry;
use crate::opening::{opened, Arrival, RefusedOpening};
use crate::table::*;
use std::fmt;

/// "Are fewer than 1,024 passages open or closed?"
pub const MAX_PASSAGES: usize = 1024;

/// The four clocks of a component, absent ones 0.
pub type Clocks = [u32; MAX_CLOCKS];
/// The four variables of a component, absent ones 0.
pub type Variables = [i16; MAX_VARIABLES];

/// "a list of passages, each with seven fields: component, edge, location,
/// entry, ready, end, message"; beside them the values at entry.
#[derive(Clone, Copy, Debug, PartialEq, Eq)]
pub struct Passage {
    /// The component that passes.
    pub component: u8,
    /// The edge taken.
    pub edge: u8,
    /// The location that is left on this edge.
    pub location: u8,
    /// "A component enters a location at its entry tick."
    pub entry: u32,
    /// The first tick of the window.
    pub ready: u32,
    /// The last tick of the window.
    pub end: u32,
    /// The channel of the message sent or taken.
    pub message: Option<u8>,
    /// The clocks at entry.
    pub clocks: Clocks,
    /// The variables at entry.
    pub variables: Variables,
}

/// A window counted from the entry, "both included".
#[derive(Clone, Copy, Debug, PartialEq, Eq)]
pub struct Window {
    /// Ticks from the entry to ready.
    pub ready: u32,
    /// Ticks from the entry to end.
    pub end: u32,
}

impl Window {
    /// Whether it has "at least one tick's length", and that of an edge's budget.
    pub fn is_long_enough(&self, edge: &Edge) -> bool {
        self.ready < self.end && self.end - self.ready >= u32::from(edge.budget)
    }
}

/// "For an edge from there, ready is the least tick, entry or later, at which
/// invariant and clock bounds hold; end is the last such tick." Nothing where
/// there is no such tick. The clocks are those at entry; as they grow
/// together, the ticks in between are such ticks too.
pub fn window(location: &Location, edge: &Edge, clocks: &Clocks) -> Option<Window> {
    let reach = |clock: u8, bound: u16| i64::from(bound) - i64::from(clocks[clock as usize]);
    let mut ready = 0;
    let mut end = reach(location.clock, location.bound);
    for bound in edge.clock_bounds.iter() {
        ready = ready.max(reach(bound.clock, bound.low));
        if let Some(high) = bound.high {
            end = end.min(reach(bound.clock, high));
        }
    }
    (ready <= end).then_some(Window {
        ready: ready as u32,
        end: end as u32,
    })
}

impl Passage {
    /// The edge taken, in its table.
    pub fn edge_in<'a>(&self, table: &'a Table) -> &'a Edge {
        &table.components[self.component as usize].edges[self.edge as usize]
    }

    /// Whether the two windows share a tick.
    pub fn shares_a_tick(&self, other: &Passage) -> bool {
        self.lies_within(other, 0)
    }

    /// Document 02, wish 6: whether the two windows are "closer than or equal to
    /// G", which is the distance from the end of one to the ready of the other.
    pub fn lies_within(&self, other: &Passage, spread: u32) -> bool {
        self.ready <= other.end + spread && other.ready <= self.end + spread
    }

    /// The seven fields of a passage as numbers.
    pub fn fields(&self, no_message: u32) -> [u32; 7] {
        [
            self.component.into(),
            self.edge.into(),
            self.location.into(),
            self.entry,
            self.ready,
            self.end,
            self.message.map_or(no_message, u32::from),
        ]
    }

    /// "the destination is entered at end, always. There, masked clocks
    /// become 0 and the others have grown by end − entry. Updates act in
    /// order."
    pub(crate) fn close(&self, table: &Table) -> Arrival {
        let component = &table.components[self.component as usize];
        let edge = self.edge_in(table);
        let mut clocks = [0; MAX_CLOCKS];
        for clock in 0..component.clocks as usize {
            if !edge.resets(clock) {
                clocks[clock] = self.clocks[clock] + (self.end - self.entry);
            }
        }
        Arrival {
            component: self.component,
            tick: self.end,
            entry: Entry {
                location: edge.target(self.message),
                clocks,
                variables: edge.updated(&self.variables).unwrap_or(self.variables),
            },
        }
    }
}

/// The printer's line: the seven fields, "- for no message".
impl fmt::Display for Passage {
    fn fmt(&self, out: &mut fmt::Formatter<'_>) -> fmt::Result {
        let [component, edge, location, entry, ready, end, message] = self.fields(0);
        write!(out, "{component} {edge} {location} {entry} {ready} {end} ")?;
        match self.message {
            Some(_) => write!(out, "{message}"),
            None => write!(out, "-"),
        }
    }
}

/// What the schedule printer prints, a line for each passage after the first.
pub fn print(passages: &[Passage]) -> String {
    let mut text = String::from("c e l entry ready end msg\n");
    for passage in passages {
        text.push_str(&format!("{passage}\n"));
    }
    text
}

/// The schedule of a table, with checks 7 to 9.
pub fn schedule(table: &Table) -> Result<Vec<Passage>, Refusal> {
    schedule_or_fault(table).map_err(|refused| refused.refusal())
}

/// The schedule, or the opening at which one of checks 7 to 9 is not passed. "They
/// stand in the order of opening. Components 0 upward open at tick 0. Then, while
/// the least end of an open passage is below H, that passage closes (ties: lowest
/// component) and its component's next opens."
pub fn schedule_or_fault(table: &Table) -> Result<Vec<Passage>, RefusedOpening> {
    let mut list = Vec::new();
    let mut open = [0; MAX_COMPONENTS];
    let open = &mut open[..table.components.len()];
    for (number, component) in table.components.iter().enumerate() {
        open[number] = list.len();
        let start = Arrival {
            component: number as u8,
            tick: 0,
            entry: Entry {
                location: component.initial,
                clocks: [0; MAX_CLOCKS],
                variables: [0; MAX_VARIABLES],
            },
        };
        list.push(opened(table, &start, list.len())?);
    }
    while let Some(component) = next_to_close(&list, open, table.horizon) {
        let index = open[component];
        set_message(table, &mut list, index);
        let arrival = list[index].close(table);
        open[component] = list.len();
        list.push(opened(table, &arrival, list.len())?);
    }
    for &index in open.iter() {
        set_message(table, &mut list, index);
    }
    Ok(list)
}

/// The component whose open passage ends first, if it ends before H.
fn next_to_close(list: &[Passage], open: &[usize], horizon: u16) -> Option<usize> {
    let end = |component: &usize| list[open[*component]].end;
    let first = (0..open.len()).min_by_key(end)?;
    (end(&first) < u32::from(horizon)).then_some(first)
}

/// "The edge is a candidate if they hold and ready < end": the window of an
/// edge from the location entered, if it is one. Document 02, wish 8: "An edge is a
/// candidate only if its window length, end − ready, is also at least the budget".
pub(crate) fn candidate(component: &Component, edge: &Edge, entry: &Entry) -> Option<Window> {
    let location = component.locations.get(usize::from(entry.location))?;
    if edge.source != entry.location || !edge.data_bounds_hold(&entry.variables) {
        return None;
    }
    let window = window(location, edge, &entry.clocks)?;
    window.is_long_enough(edge).then_some(window)
}

/// "The candidate with the least ready is taken, on a tie the lowest number."
pub(crate) fn taken(component: &Component, entry: &Entry) -> Option<(usize, Window)> {
    let mut best: Option<(usize, Window)> = None;
    for (number, edge) in component.edges.iter().enumerate() {
        let Some(window) = candidate(component, edge, entry) else {
            continue;
        };
        if best.is_none_or(|(_, kept)| window.ready < kept.ready) {
            best = Some((number, window));
        }
    }
    best
}

/// Gives the passage at `index` its message if it is a receive passage.
fn set_message(table: &Table, list: &mut [Passage], index: usize) {
    if let Action::Receive(_) = list[index].edge_in(table).action {
        list[index].message = message(table, list, index);
    }
}

/// "A receive passage's message is the channel of a send window of another
/// component on a listed channel, starting after its ready and before H, and
/// ending before its end; the one ending first, ties to the lowest component;
/// else none."
///
/// It is sought from the list's end. A component's passages before one that
/// was entered at or before the ready of the receive passage have ended by
/// then and are left out. When a receive passage closes, all windows that end
/// before its end stand in the list already, so the answer is that of "the
/// finished schedule".
fn message(table: &Table, list: &[Passage], index: usize) -> Option<u8> {
    let receive = &list[index];
    let edge = receive.edge_in(table);
    let fits = |send: &Passage| {
        receive.ready < send.ready
            && send.ready < u32::from(table.horizon)
            && send.end < receive.end
    };
    let mut first: Option<(u32, u8, u8)> = None;
    let mut wanted =
        !(1 << receive.component) & (0xff >> (MAX_COMPONENTS - table.components.len()));
    for passage in list.iter().rev() {
        if wanted == 0 {
            break;
        }
        let bit = 1u8 << passage.component;
        if wanted & bit == 0 {
            continue;
        }
        if passage.entry <= receive.ready {
            wanted &= !bit;
        }
        if let Action::Send(channel) = passage.edge_in(table).action {
            let found = (passage.end, passage.component, channel);
            if fits(passage) && edge.listens_to(channel) && first.is_none_or(|f| found < f) {
                first = Some(found);
            }
        }
    }
    first.map(|(_, _, channel)| channel)
}
