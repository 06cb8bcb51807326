//! The path of the network: each step is tried by the network's rules, and
//! each passage on it is compared with the schedule.

use reference::network::{advance, start, State, Step};
use reference::schedule::{window, Clocks, Passage, Variables};
use reference::table::Table;

/// A passage on the path.
#[derive(Clone, Copy, Debug, PartialEq, Eq)]
pub struct Stay {
    /// The location entered.
    pub location: u8,
    /// When it was entered.
    pub entry: u32,
    /// The clocks at entry.
    pub clocks: Clocks,
    /// The variables at entry.
    pub variables: Variables,
    /// The edge and the message, once stepped in.
    pub step_in: Option<(u8, Option<u8>)>,
    /// When that was.
    pub stepped_in: Option<u32>,
}

/// "An observation on it is edge, location, values and tick at the ready of
/// the edge taken".
#[derive(Clone, Copy, Debug, PartialEq, Eq)]
pub struct Observation {
    /// The component that passes.
    pub component: u8,
    /// The edge taken.
    pub edge: u8,
    /// The location that it leaves.
    pub location: u8,
    /// The ready of the edge.
    pub tick: u32,
    /// The clocks then.
    pub clocks: Clocks,
    /// The variables then.
    pub variables: Variables,
}

/// A path so far.
pub struct Path<'a> {
    table: &'a Table,
    own: &'a [Vec<&'a Passage>],
    state: State,
    stays: Vec<Vec<Stay>>,
}

impl<'a> Path<'a> {
    /// "It starts at tick 0, each component at its initial location, none
    /// waiting."
    pub fn new(table: &'a Table, own: &'a [Vec<&'a Passage>]) -> Result<Path<'a>, String> {
        let components = table.components.len();
        let mut path = Path {
            table,
            own,
            state: start(table),
            stays: vec![Vec::new(); components],
        };
        (0..components).try_for_each(|component| path.enter(component))?;
        Ok(path)
    }

    /// The tick that it has reached.
    pub fn reached(&self) -> u32 {
        self.state.tick
    }

    /// How many components there are.
    pub fn components(&self) -> usize {
        self.own.len()
    }

    /// The ticks at which a component has stepped in, in their order.
    pub fn steps_in(&self, component: usize) -> impl Iterator<Item = u32> + '_ {
        let stays = self.stays[component].iter();
        stays.filter_map(|stay| stay.stepped_in)
    }

    /// A component's passages in the schedule.
    pub fn own(&self, component: usize) -> &[&'a Passage] {
        &self.own[component]
    }

    /// Notes a component's entry: "each component's passages on it are its
    /// first in the schedule: location, entry". Clocks and variables agree
    /// too.
    fn enter(&mut self, component: usize) -> Result<(), String> {
        let place = &self.state.places[component];
        let stay = Stay {
            location: place.location,
            entry: place.entry,
            clocks: place.clocks,
            variables: place.variables,
            step_in: None,
            stepped_in: None,
        };
        let stays = &mut self.stays[component];
        let agrees = self.own[component].get(stays.len()).is_some_and(|passage| {
            passage.location == stay.location
                && passage.entry == stay.entry
                && passage.clocks == stay.clocks
                && passage.variables == stay.variables
        });
        stays.push(stay);
        if agrees {
            return Ok(());
        }
        Err(format!(
            "scheduled: component {component} enters {stay:?}, not as the schedule says"
        ))
    }

    /// Takes a step that the network must allow.
    fn step(&mut self, step: Step) -> Result<(), String> {
        let tick = self.state.tick;
        if advance(self.table, &mut self.state, step) {
            return Ok(());
        }
        Err(format!(
            "valid: the network forbids {step:?} at tick {tick}"
        ))
    }

    /// Steps out a component that waits for its end.
    fn out(&mut self, component: usize) -> Result<(), String> {
        let number = component as u8;
        self.step(Step::Out { component: number })?;
        self.enter(component)
    }

    /// The edge on which a component steps in next: that of its passage in
    /// the schedule. If it still waits it steps out first.
    fn edge_of_next(&mut self, component: usize) -> Result<u8, String> {
        if self.state.places[component].waiting.is_some() {
            self.out(component)?;
        }
        Ok(self.own[component][self.stays[component].len() - 1].edge)
    }

    /// Notes a step in: "once stepped in, edge and message".
    fn stepped_in(&mut self, component: usize) -> Result<(), String> {
        let waiting = self.state.places[component].waiting;
        let stays = &mut self.stays[component];
        let last = stays.len() - 1;
        stays[last].step_in = waiting.map(|w| (w.edge, w.message));
        stays[last].stepped_in = Some(self.state.tick);
        let passage = self.own[component][last];
        if stays[last].step_in == Some((passage.edge, passage.message)) {
            return Ok(());
        }
        Err(format!(
            "scheduled: component {component} steps in with {:?}, not with {:?} as the schedule says",
            stays[last].step_in,
            (passage.edge, passage.message)
        ))
    }

    /// A component steps in alone, now.
    pub fn alone(&mut self, component: u8) -> Result<(), String> {
        let edge = self.edge_of_next(component.into())?;
        self.step(Step::Alone { component, edge })?;
        self.stepped_in(component.into())
    }

    /// Two components step in together, now, with a message on this channel.
    pub fn joint(&mut self, sender: u8, receiver: u8, channel: u8) -> Result<(), String> {
        let send = self.edge_of_next(sender.into())?;
        let receive = self.edge_of_next(receiver.into())?;
        self.step(Step::Joint {
            sender,
            send,
            receiver,
            receive,
        })?;
        for component in [sender, receiver].map(usize::from) {
            let waiting = self.state.places[component].waiting;
            if waiting.and_then(|w| w.message) != Some(channel) {
                return Err(format!("worked: the message is not on channel {channel}"));
            }
            self.stepped_in(component)?;
        }
        Ok(())
    }

    /// Whether a component waits and its end is now, as the schedule says.
    fn is_at_end(&self, component: usize) -> bool {
        let passage = self.own[component].get(self.stays[component].len() - 1);
        self.state.places[component].waiting.is_some()
            && passage.is_some_and(|passage| passage.end == self.state.tick)
    }

    /// Steps out whoever is at its end.
    fn step_out(&mut self) -> Result<(), String> {
        for component in 0..self.stays.len() {
            if self.is_at_end(component) {
                self.out(component)?;
            }
        }
        Ok(())
    }

    /// A tick passes, after whoever is at its end has stepped out.
    pub fn tick(&mut self) -> Result<(), String> {
        self.step_out()?;
        self.step(Step::Tick)
    }

    /// Ends the path and gives the tick that it reaches. Below the horizon
    /// those at their end step out; at the horizon that would lead into
    /// passages that the schedule lacks. Every passage of the schedule that
    /// ends before this tick must have been stepped in.
    pub fn finish(&mut self, horizon: u32) -> Result<u32, String> {
        let tick = self.state.tick;
        if tick < horizon {
            self.step_out()?;
        }
        for (component, own) in self.own.iter().enumerate() {
            let over = own.iter().filter(|passage| passage.end < tick).count();
            let stays = self.stays[component].iter();
            if stays.filter(|stay| stay.step_in.is_some()).count() < over {
                return Err(format!(
                    "kept: component {component} is past an end without stepping in"
                ));
            }
        }
        Ok(tick)
    }

    /// A component's observations on the path: "where the path stops before a
    /// component's step in, the schedule's edge counts as taken from its
    /// ready on." Those up to a tick.
    pub fn observations(
        &self,
        component: usize,
        until: u32,
    ) -> impl Iterator<Item = Observation> + '_ {
        let passages = self.stays[component].iter().zip(&self.own[component]);
        passages.filter_map(move |(stay, passage)| {
            let edge = stay.step_in.map_or(passage.edge, |(edge, _)| edge);
            let observation = self.observation(component, stay, edge)?;
            (observation.tick <= until).then_some(observation)
        })
    }

    fn observation(&self, number: usize, stay: &Stay, edge: u8) -> Option<Observation> {
        let component = &self.table.components[number];
        let location = &component.locations[usize::from(stay.location)];
        let taken = &component.edges[usize::from(edge)];
        let delay = window(location, taken, &stay.clocks)?.ready;
        let mut clocks = stay.clocks;
        for clock in &mut clocks[..usize::from(component.clocks)] {
            *clock += delay;
        }
        Some(Observation {
            component: number as u8,
            edge,
            location: stay.location,
            tick: stay.entry + delay,
            clocks,
            variables: stay.variables,
        })
    }
}
