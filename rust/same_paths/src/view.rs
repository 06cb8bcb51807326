//! A state of a table's network as one of the text's, by names.

use reference::network::{Place, State};
use reference::table::{Component, Table};
use std::collections::HashMap;
use xta::network::{self, Stand};
use xta::{Process, System};

/// The numbers of the names that a text has.
pub(crate) struct Views(Vec<View>);

/// Those of one process.
struct View {
    locations: HashMap<String, usize>,
    clocks: Vec<usize>,
    variables: Vec<usize>,
}

impl Views {
    /// Finds the processes of a table's components in a text, in their order, with the
    /// clocks and variables that they have and no others.
    pub(crate) fn new(table: &Table, system: &System) -> Result<Views, String> {
        if system.processes.len() != table.components.len() {
            return Err(format!("{} processes", system.processes.len()));
        }
        let mut views = Vec::new();
        for (number, component) in table.components.iter().enumerate() {
            let process = &system.processes[number];
            if process.name != format!("P{number}") {
                return Err(process.name.clone());
            }
            views.push(View::new(component, process)?);
        }
        Ok(Views(views))
    }

    /// A state by the names of the text; nothing where a location has no name there.
    pub(crate) fn of(&self, state: &State) -> Option<network::State> {
        let views = self.0.iter().zip(&state.places);
        views.map(|(view, place)| view.of(place)).collect()
    }
}

impl View {
    fn new(component: &Component, process: &Process) -> Result<View, String> {
        let variables: Vec<&str> = process.variables.iter().map(|own| &*own.name).collect();
        let clocks: Vec<&str> = process.clocks.iter().map(|name| &**name).collect();
        let locations = process.locations.iter().enumerate();
        Ok(View {
            locations: locations
                .map(|(number, own)| (own.name.clone(), number))
                .collect(),
            clocks: places("x", component.clocks, &clocks)?,
            variables: places("v", component.variables, &variables)?,
        })
    }

    fn of(&self, place: &Place) -> Option<Stand> {
        let name = match place.waiting {
            None => format!("L{}", place.location),
            Some(waiting) => match waiting.message {
                None => format!("W{}", waiting.edge),
                Some(channel) => format!("W{}_c{channel}", waiting.edge),
            },
        };
        let mut clocks = vec![0; self.clocks.len()];
        for (clock, at) in place.clocks.iter().zip(&self.clocks) {
            clocks[*at] = *clock;
        }
        let mut variables = vec![0; self.variables.len()];
        for (value, at) in place.variables.iter().zip(&self.variables) {
            variables[*at] = i32::from(*value);
        }
        Some(Stand {
            location: *self.locations.get(&name)?,
            clocks,
            variables,
        })
    }
}

/// Where so many numbered names stand among those that there are, which are as many.
fn places(letter: &str, count: u8, names: &[&str]) -> Result<Vec<usize>, String> {
    if names.len() != usize::from(count) {
        return Err(format!("{} names with {letter}", names.len()));
    }
    let place = |number: u8| {
        let wanted = format!("{letter}{number}");
        let found = names.iter().position(|name| *name == wanted);
        found.ok_or(format!("no {wanted}"))
    };
    (0..count).map(place).collect()
}
