//! The schedule to a horizon of any size, "beyond 60,000 ticks and 1,024 passages":
//! document 02's wish 14.
//!
//! It is opened passage by passage as document 01 says, whatever the horizon; that the
//! passages come again is used nowhere here.

use crate::edge_choice::Entry;
use crate::opening::{opened, Arrival};
use crate::run::Readies;
use crate::schedule::Passage;
use crate::table::*;

/// A passage, with its ticks as numbers of any size.
#[derive(Clone, Copy, Debug, PartialEq, Eq)]
pub struct Stay {
    /// When it is entered.
    pub entry: u64,
    /// The passage, its ticks counted from the entry.
    pub passage: Passage,
}

impl Stay {
    /// The first tick of its window.
    pub fn ready(&self) -> u64 {
        self.entry + u64::from(self.passage.ready)
    }

    /// The last tick of its window.
    pub fn end(&self) -> u64 {
        self.entry + u64::from(self.passage.end)
    }

    /// Its component.
    fn component(&self) -> usize {
        self.passage.component.into()
    }
}

/// The schedule of an accepted table to a horizon that it can be run to, or nothing
/// where it has more passages than `room`. "Components 0 upward open at tick 0. Then,
/// while the least end of an open passage is below H, that passage closes (ties: lowest
/// component) and its component's next opens."
pub fn schedule_to(table: &Table, horizon: u64, room: usize) -> Option<Vec<Stay>> {
    let mut list = Vec::new();
    for (number, component) in table.components.iter().enumerate() {
        let entry = Entry {
            location: component.initial,
            clocks: [0; MAX_CLOCKS],
            variables: [0; MAX_VARIABLES],
        };
        list.push(stay(table, number, 0, entry));
    }
    let mut open: Vec<usize> = (0..list.len()).collect();
    while list.len() <= room {
        let Some(component) = next_to_close(&list, &open, horizon) else {
            set_messages(table, &mut list, &open, horizon);
            return Some(list);
        };
        set_message(table, &mut list, open[component], horizon);
        let closed = list[open[component]];
        open[component] = list.len();
        let entry = closed.passage.close(table).entry;
        list.push(stay(table, component, closed.end(), entry));
    }
    None
}

/// Opens a passage of a component at a tick. There is no limit of 1,024 to a horizon
/// that is handed in; 8 and 9 are passed to every horizon that the table can be run to.
fn stay(table: &Table, component: usize, tick: u64, entry: Entry) -> Stay {
    let arrival = Arrival {
        component: component as u8,
        tick: 0,
        entry,
    };
    let passage = opened(table, &arrival, 0);
    Stay {
        entry: tick,
        passage: passage.expect("checks 8 and 9 are passed beyond the table's own horizon"),
    }
}

/// The component whose open passage ends first, if it ends before the horizon.
fn next_to_close(list: &[Stay], open: &[usize], horizon: u64) -> Option<usize> {
    let end = |component: &usize| list[open[*component]].end();
    let first = (0..open.len()).min_by_key(end)?;
    (end(&first) < horizon).then_some(first)
}

/// "It is sought in the finished schedule, for passages still open too."
fn set_messages(table: &Table, list: &mut [Stay], open: &[usize], horizon: u64) {
    for index in open {
        set_message(table, list, *index, horizon);
    }
}

/// Gives the passage at `index` its message if it is a receive passage.
fn set_message(table: &Table, list: &mut [Stay], index: usize, horizon: u64) {
    if let Action::Receive(_) = list[index].passage.edge_in(table).action {
        list[index].passage.message = message(table, list, index, horizon);
    }
}

/// "A receive passage's message is the channel of a send window of another component
/// on a listed channel, starting after its ready and before H, and ending before its
/// end; the one ending first, ties to the lowest component; else none." A component's
/// passages before one entered at or before the ready have ended by then.
fn message(table: &Table, list: &[Stay], index: usize, horizon: u64) -> Option<u8> {
    let receive = &list[index];
    let edge = receive.passage.edge_in(table);
    let mut found: Option<(u64, usize, u8)> = None;
    for component in (0..table.components.len()).filter(|c| *c != receive.component()) {
        let own = list.iter().rev().filter(|s| s.component() == component);
        for send in own {
            if let Action::Send(channel) = send.passage.edge_in(table).action {
                let fits = receive.ready() < send.ready()
                    && send.ready() < horizon
                    && send.end() < receive.end();
                let candidate = (send.end(), component, channel);
                if fits && edge.listens_to(channel) && found.is_none_or(|f| candidate < f) {
                    found = Some(candidate);
                }
            }
            if send.entry <= receive.ready() {
                break;
            }
        }
    }
    found.map(|(_, _, channel)| channel)
}

/// What lateness needs to know of such a schedule.
pub fn readies_of(stays: &[Stay]) -> Readies {
    let mut readies = Readies::default();
    for stay in stays {
        readies[stay.component()].push(stay.ready());
    }
    readies
}
