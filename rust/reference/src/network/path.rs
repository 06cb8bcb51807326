//! Paths: the passages and observations on them, and the path of a run.

use super::{advance, start, State, Step};
use crate::run::Event;
use crate::schedule::{window, Clocks, Passage, Variables};
use crate::table::*;

/// One passage on a path.
#[derive(Clone, Copy, Debug, PartialEq, Eq)]
pub struct Visit {
    /// The component that passes.
    pub component: u8,
    /// The location entered.
    pub location: u8,
    /// When it was entered.
    pub entry: u32,
    /// The clocks at entry.
    pub clocks: Clocks,
    /// The variables at entry.
    pub variables: Variables,
    /// "once stepped in, edge and message".
    pub step_in: Option<(u8, Option<u8>)>,
}

/// A path followed: where it ends, and the passages on it in the order of
/// their entries.
#[derive(Clone, Debug, PartialEq, Eq)]
pub struct Trace {
    /// The state at the path's end.
    pub state: State,
    /// The passages on it.
    pub visits: Vec<Visit>,
}

/// Follows a path and notes its passages; an error as in
/// [`follow`](super::follow).
pub fn trace(table: &Table, steps: &[Step]) -> Result<Trace, usize> {
    let mut state = start(table);
    let numbers = 0..table.components.len() as u8;
    let mut visits: Vec<Visit> = numbers.clone().map(|c| visit(&state, c)).collect();
    let mut present: Vec<usize> = numbers.map(usize::from).collect();
    for (index, step) in steps.iter().enumerate() {
        if !advance(table, &mut state, *step) {
            return Err(index);
        }
        match *step {
            Step::Tick => {}
            Step::Alone { component, .. } => note(&state, component, &mut visits, &present),
            Step::Joint {
                sender, receiver, ..
            } => {
                note(&state, sender, &mut visits, &present);
                note(&state, receiver, &mut visits, &present);
            }
            Step::Out { component } => {
                present[component as usize] = visits.len();
                visits.push(visit(&state, component));
            }
        }
    }
    Ok(Trace { state, visits })
}

fn visit(state: &State, component: u8) -> Visit {
    let place = &state.places[component as usize];
    Visit {
        component,
        location: place.location,
        entry: place.entry,
        clocks: place.clocks,
        variables: place.variables,
        step_in: None,
    }
}

/// Notes a component's step in at its present passage.
fn note(state: &State, component: u8, visits: &mut [Visit], present: &[usize]) {
    let waiting = state.places[component as usize].waiting;
    visits[present[component as usize]].step_in = waiting.map(|w| (w.edge, w.message));
}

/// A component's passages in a schedule.
fn own(passages: &[Passage], component: u8) -> impl Iterator<Item = &Passage> {
    passages.iter().filter(move |p| p.component == component)
}

/// A component's passages on a path.
fn visited(trace: &Trace, component: u8) -> impl Iterator<Item = &Visit> {
    let visits = trace.visits.iter();
    visits.filter(move |v| v.component == component)
}

/// "It passes as the schedule says if each component's passages on it are its
/// first in the schedule: location, entry and, once stepped in, edge and
/// message."
pub fn passes_as_scheduled(passages: &[Passage], trace: &Trace) -> bool {
    (0..trace.state.places.len() as u8).all(|component| {
        let mut scheduled = own(passages, component);
        visited(trace, component).all(|v| scheduled.next().is_some_and(|p| agrees(v, p)))
    })
}

fn agrees(visit: &Visit, passage: &Passage) -> bool {
    visit.location == passage.location
        && visit.entry == passage.entry
        && visit
            .step_in
            .is_none_or(|s| s == (passage.edge, passage.message))
}

/// "An observation on it is edge, location, values and tick at the ready of
/// the edge taken".
#[derive(Clone, Copy, Debug, PartialEq, Eq)]
pub struct Observation {
    /// The edge taken.
    pub edge: u8,
    /// The location that it leaves.
    pub location: u8,
    /// The tick, which is the ready of the edge.
    pub tick: u32,
    /// The clocks at that tick.
    pub clocks: Clocks,
    /// The variables at that tick.
    pub variables: Variables,
}

/// The observations of one component on a path, in their order: "where the
/// path stops before a component's step in, the schedule's edge counts as
/// taken from its ready on."
pub fn observations_on(
    table: &Table,
    passages: &[Passage],
    trace: &Trace,
    component: u8,
) -> Vec<Observation> {
    let mut scheduled = own(passages, component);
    let mut all = Vec::new();
    for visit in visited(trace, component) {
        let passage = scheduled.next();
        let edge = match visit.step_in {
            Some((edge, _)) => Some(edge),
            None => passage.map(|p| p.edge),
        };
        let observation = edge.and_then(|edge| observation(table, visit, edge));
        all.extend(observation.filter(|o| o.tick <= trace.state.tick));
    }
    all
}

fn observation(table: &Table, visit: &Visit, number: u8) -> Option<Observation> {
    let component = &table.components[visit.component as usize];
    let edge = &component.edges[number as usize];
    let location = &component.locations[visit.location as usize];
    let delay = window(location, edge, &visit.clocks)?.ready;
    let mut clocks = visit.clocks;
    for clock in &mut clocks[..component.clocks.into()] {
        *clock += delay;
    }
    Some(Observation {
        edge: number,
        location: visit.location,
        tick: visit.entry + delay,
        clocks,
        variables: visit.variables,
    })
}

/// The path that a run has taken, up to a tick: each work of its log is the
/// step in of its node at the same tick, on the edge of the node's passage in
/// the schedule; each component steps out at its end. At tick H it stops
/// before the steps out, which lead into passages that the schedule lacks.
pub fn path_of_run(table: &Table, passages: &[Passage], log: &[Event], tick: u32) -> Vec<Step> {
    let mut path = Path {
        table,
        passages,
        steps: Vec::new(),
        tick: 0,
        waiting: vec![None; table.components.len()],
        next: vec![0; table.components.len()],
    };
    for event in log {
        match *event {
            Event::Done { node, tick } | Event::Timeout { node, tick } => path.alone(node, tick),
            Event::Message {
                sender,
                receiver,
                tick,
                ..
            } => path.joint(sender, receiver, tick),
        }
    }
    path.tick_to(tick);
    if tick < u32::from(table.horizon) {
        path.step_out_at_end();
    }
    path.steps
}

/// A path under construction.
struct Path<'a> {
    table: &'a Table,
    passages: &'a [Passage],
    steps: Vec<Step>,
    tick: u32,
    /// For each waiting component its end.
    waiting: Vec<Option<u32>>,
    /// For each component the place in the schedule to go on from.
    next: Vec<usize>,
}

impl Path<'_> {
    fn alone(&mut self, component: u8, tick: u32) {
        self.tick_to(tick);
        if let Some(edge) = self.step_in(component) {
            self.steps.push(Step::Alone { component, edge });
        }
    }

    fn joint(&mut self, sender: u8, receiver: u8, tick: u32) {
        self.tick_to(tick);
        if let (Some(send), Some(receive)) = (self.step_in(sender), self.step_in(receiver)) {
            self.steps.push(Step::Joint {
                sender,
                send,
                receiver,
                receive,
            });
        }
    }

    /// Steps a component out of its last passage if it has not done so, and
    /// gives the edge of its next.
    fn step_in(&mut self, component: u8) -> Option<u8> {
        let number = usize::from(component);
        if self.waiting[number].is_some() {
            self.out(component);
        }
        let rest = self.passages.iter().enumerate().skip(self.next[number]);
        let (index, passage) = rest.into_iter().find(|(_, p)| p.component == component)?;
        self.next[number] = index + 1;
        self.waiting[number] = Some(passage.end);
        Some(passage.edge)
    }

    fn out(&mut self, component: u8) {
        self.waiting[usize::from(component)] = None;
        self.steps.push(Step::Out { component });
    }

    /// Ticks up to a tick, stepping out whoever is at its end on the way.
    fn tick_to(&mut self, tick: u32) {
        while self.tick < tick {
            self.step_out_at_end();
            self.steps.push(Step::Tick);
            self.tick += 1;
        }
    }

    /// Steps out whoever is at its end.
    fn step_out_at_end(&mut self) {
        for component in 0..self.table.components.len() as u8 {
            if self.waiting[usize::from(component)] == Some(self.tick) {
                self.out(component);
            }
        }
    }
}
