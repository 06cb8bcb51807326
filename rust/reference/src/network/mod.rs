//! The network: its state and its steps, from the table alone.
//!
//! "The network has a waiting location for each edge and each outcome of a
//! receive edge. It sees the table alone."

mod path;

pub use path::{
    observations_on, passes_as_scheduled, path_of_run, trace, Observation, Trace, Visit,
};

use crate::schedule::{window, Clocks, Variables};
use crate::table::*;

/// "Its state is the tick, and each component's location, entry, clocks,
/// variables and, if waiting, edge and message."
#[derive(Clone, Debug, PartialEq, Eq)]
pub struct State {
    /// The tick.
    pub tick: u32,
    /// Each component's part of the state.
    pub places: Vec<Place>,
}

/// One component's part of the state.
#[derive(Clone, Copy, Debug, PartialEq, Eq)]
pub struct Place {
    /// Its location, also while it waits to leave it.
    pub location: u8,
    /// The tick at which it entered the location.
    pub entry: u32,
    /// Its clocks at the present tick.
    pub clocks: Clocks,
    /// Its variables.
    pub variables: Variables,
    /// If it is waiting: on what.
    pub waiting: Option<Waiting>,
}

/// Where a waiting component will step out.
#[derive(Clone, Copy, Debug, PartialEq, Eq)]
pub struct Waiting {
    /// The edge that it stepped in on.
    pub edge: u8,
    /// The channel of the message sent or taken.
    pub message: Option<u8>,
}

/// A step of the network.
#[derive(Clone, Copy, Debug, PartialEq, Eq)]
pub enum Step {
    /// "A tick passes, all clocks growing by 1".
    Tick,
    /// A component steps in alone: on an internal edge, or on a receive edge
    /// (timeout).
    Alone {
        /// The component.
        component: u8,
        /// Its edge.
        edge: u8,
    },
    /// "a send together with one receive naming its channel".
    Joint {
        /// The component that sends.
        sender: u8,
        /// Its send edge.
        send: u8,
        /// The component that receives.
        receiver: u8,
        /// Its receive edge.
        receive: u8,
    },
    /// "It steps out exactly at that end, with updates and resets."
    Out {
        /// The component.
        component: u8,
    },
}

/// "It starts at tick 0, each component at its initial location, none
/// waiting."
pub fn start(table: &Table) -> State {
    let place = |component: &Component| Place {
        location: component.initial,
        entry: 0,
        clocks: [0; MAX_CLOCKS],
        variables: [0; MAX_VARIABLES],
        waiting: None,
    };
    State {
        tick: 0,
        places: table.components.iter().map(place).collect(),
    }
}

/// The state that a step leads to, or nothing where it is not allowed.
pub fn step(table: &Table, state: &State, step: Step) -> Option<State> {
    let mut next = state.clone();
    advance(table, &mut next, step).then_some(next)
}

/// Takes a step in place and says whether it is allowed; a step that is not
/// leaves the state as it was.
pub fn advance(table: &Table, state: &mut State, step: Step) -> bool {
    match step {
        Step::Tick => pass_tick(table, state),
        Step::Alone { component, edge } => step_in_alone(table, state, component, edge),
        Step::Joint {
            sender,
            send,
            receiver,
            receive,
        } => step_in_together(table, state, (sender, send), (receiver, receive)),
        Step::Out { component } => step_out(table, state, component),
    }
}

/// The state at the end of a path, "any list of these steps from the start",
/// or the place in the list of the first step that is not allowed.
pub fn follow(table: &Table, steps: &[Step]) -> Result<State, usize> {
    let mut state = start(table);
    for (index, step) in steps.iter().enumerate() {
        if !advance(table, &mut state, *step) {
            return Err(index);
        }
    }
    Ok(state)
}

/// Not "if it breaks a non-waiting component's invariant or a waiting one is
/// at its end".
fn pass_tick(table: &Table, state: &mut State) -> bool {
    let components = table.components.iter();
    let allowed = components
        .zip(&state.places)
        .all(|(component, place)| may_tick(component, place, state.tick));
    if allowed {
        state.tick += 1;
        for (component, place) in table.components.iter().zip(&mut state.places) {
            for clock in &mut place.clocks[..component.clocks.into()] {
                *clock += 1;
            }
        }
    }
    allowed
}

fn may_tick(component: &Component, place: &Place, tick: u32) -> bool {
    match place.waiting {
        Some(waiting) => {
            let edge = &component.edges[waiting.edge as usize];
            ticks(component, place, edge, tick).is_some_and(|(_, end)| tick < end)
        }
        None => {
            let location = &component.locations[place.location as usize];
            place.clocks[location.clock as usize] < u32::from(location.bound)
        }
    }
}

/// Ready and end of an edge from the present location, as ticks: "the least
/// tick, entry or later, at which invariant and clock bounds hold" and "the
/// last such tick".
fn ticks(component: &Component, place: &Place, edge: &Edge, tick: u32) -> Option<(u32, u32)> {
    let mut at_entry = place.clocks;
    for clock in &mut at_entry[..component.clocks.into()] {
        *clock -= tick - place.entry;
    }
    let location = &component.locations[place.location as usize];
    let window = window(location, edge, &at_entry)?;
    Some((place.entry + window.ready, place.entry + window.end))
}

/// What a component needs to step in on an edge, the kind left aside: the
/// edge and its end. "A component not waiting steps in on an edge from its
/// location whose data bounds hold and updates stay in range, from its ready
/// to its end".
fn step_in<'a>(table: &'a Table, state: &State, number: u8, edge: u8) -> Option<(&'a Edge, u32)> {
    let component = table.components.get(number as usize)?;
    let place = &state.places[number as usize];
    let edge = component.edges.get(edge as usize)?;
    let may = place.waiting.is_none()
        && edge.source == place.location
        && edge.data_bounds_hold(&place.variables)
        && edge.updated(&place.variables).is_some();
    let (ready, end) = ticks(component, place, edge, state.tick)?;
    (may && ready <= state.tick && state.tick <= end).then_some((edge, end))
}

/// "internal alone, [...] a receive alone (timeout) only at its end".
fn step_in_alone(table: &Table, state: &mut State, component: u8, number: u8) -> bool {
    let Some((edge, end)) = step_in(table, state, component, number) else {
        return false;
    };
    let allowed = match edge.action {
        Action::Internal(_) => true,
        Action::Receive(_) => state.tick == end,
        Action::Send(_) => false,
    };
    if allowed {
        wait(state, component, number, None);
    }
    allowed
}

/// "a send together with one receive naming its channel".
fn step_in_together(table: &Table, state: &mut State, send: (u8, u8), receive: (u8, u8)) -> bool {
    if send.0 == receive.0 {
        return false;
    }
    let Some((sending, _)) = step_in(table, state, send.0, send.1) else {
        return false;
    };
    let Some((listening, _)) = step_in(table, state, receive.0, receive.1) else {
        return false;
    };
    let Action::Send(channel) = sending.action else {
        return false;
    };
    let allowed = listening.listens_to(channel);
    if allowed {
        wait(state, send.0, send.1, Some(channel));
        wait(state, receive.0, receive.1, Some(channel));
    }
    allowed
}

fn wait(state: &mut State, component: u8, edge: u8, message: Option<u8>) {
    state.places[component as usize].waiting = Some(Waiting { edge, message });
}

/// "It steps out exactly at that end, with updates and resets."
fn step_out(table: &Table, state: &mut State, number: u8) -> bool {
    let tick = state.tick;
    let Some(component) = table.components.get(number as usize) else {
        return false;
    };
    let place = &mut state.places[number as usize];
    let Some(waiting) = place.waiting else {
        return false;
    };
    let edge = &component.edges[waiting.edge as usize];
    let end = ticks(component, place, edge, tick).map(|(_, end)| end);
    let (true, Some(variables)) = (end == Some(tick), edge.updated(&place.variables)) else {
        return false;
    };
    for (clock, value) in place.clocks.iter_mut().enumerate() {
        if edge.resets(clock) {
            *value = 0;
        }
    }
    place.location = edge.target(waiting.message);
    place.entry = tick;
    place.variables = variables;
    place.waiting = None;
    true
}
