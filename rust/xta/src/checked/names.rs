//! The names of a text, each declared once.

use crate::parse::Name;
use crate::system::Variable;
use crate::Wrong;

/// What a name stands for.
#[derive(Clone, Copy, Debug, PartialEq, Eq)]
pub(crate) enum Meaning {
    Channel(usize),
    Process,
    Clock(usize),
    Variable(usize),
    Location(usize),
}

/// The names that are declared in one place: outside the processes, or in one of them.
#[derive(Default)]
pub(crate) struct Names {
    names: Vec<(String, Meaning)>,
    channels: usize,
    clocks: usize,
    locations: usize,
    variables: Vec<Variable>,
}

impl Names {
    /// What a name stands for here.
    pub(crate) fn meaning(&self, name: &str) -> Option<Meaning> {
        let found = self.names.iter().find(|(known, _)| known == name);
        found.map(|(_, meaning)| *meaning)
    }

    fn declare(&mut self, name: &Name, meaning: Meaning) -> Result<(), Wrong> {
        match self.meaning(&name.name) {
            Some(_) => Err((name.at, format!("{} is declared twice", name.name))),
            None => {
                self.names.push((name.name.clone(), meaning));
                Ok(())
            }
        }
    }

    pub(crate) fn process(&mut self, name: &Name) -> Result<(), Wrong> {
        self.declare(name, Meaning::Process)
    }

    pub(crate) fn channels(&mut self, names: &[Name]) -> Result<(), Wrong> {
        for name in names {
            self.declare(name, Meaning::Channel(self.channels))?;
            self.channels += 1;
        }
        Ok(())
    }

    pub(crate) fn clocks(&mut self, names: &[Name]) -> Result<(), Wrong> {
        for name in names {
            self.declare(name, Meaning::Clock(self.clocks))?;
            self.clocks += 1;
        }
        Ok(())
    }

    pub(crate) fn variables(
        &mut self,
        names: &[Name],
        least: i32,
        greatest: i32,
    ) -> Result<(), Wrong> {
        for name in names {
            self.declare(name, Meaning::Variable(self.variables.len()))?;
            self.variables.push(Variable {
                name: name.name.clone(),
                least,
                greatest,
            });
        }
        Ok(())
    }

    pub(crate) fn location(&mut self, name: &Name) -> Result<(), Wrong> {
        self.declare(name, Meaning::Location(self.locations))?;
        self.locations += 1;
        Ok(())
    }

    /// The names of the clocks.
    pub(crate) fn clock_names(&self) -> Vec<String> {
        self.those(|meaning| matches!(meaning, Meaning::Clock(_)))
    }

    /// The names of the channels.
    pub(crate) fn into_channels(self) -> Vec<String> {
        self.those(|meaning| matches!(meaning, Meaning::Channel(_)))
    }

    /// The variables.
    pub(crate) fn into_variables(self) -> Vec<Variable> {
        self.variables
    }

    fn those(&self, wanted: impl Fn(&Meaning) -> bool) -> Vec<String> {
        let names = self.names.iter().filter(|(_, meaning)| wanted(meaning));
        names.map(|(name, _)| name.clone()).collect()
    }
}
