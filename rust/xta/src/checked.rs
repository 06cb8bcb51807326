//! What the tool asks of a text besides its grammar: names and kinds.

mod kinds;
mod names;

use crate::parse::{self, Declared, Text, Type};
use crate::system::*;
use crate::Wrong;
use kinds::Kinds;
use names::Names;

/// The network of a text.
pub(crate) fn checked(text: &Text) -> Result<System, Wrong> {
    let mut outer = Names::default();
    for Declared { kind, names } in &text.declared {
        match kind {
            Type::Channel => outer.channels(names)?,
            _ => return Err((names[0].at, "a clock or number outside a process".into())),
        }
    }
    let mut declared = Vec::new();
    for own in &text.processes {
        outer.process(&own.name)?;
        declared.push(process(own, &outer)?);
    }
    let mut processes: Vec<Process> = Vec::new();
    for name in &text.system {
        let found = declared.iter().find(|own| own.name == name.name);
        let found = found.ok_or((name.at, format!("no process {}", name.name)))?;
        if processes.iter().any(|own| own.name == found.name) {
            return Err((name.at, format!("process {} twice", name.name)));
        }
        processes.push(found.clone());
    }
    Ok(System {
        channels: outer.into_channels(),
        processes,
    })
}

/// A process, inside which the outer names are known.
fn process(own: &parse::Process, outer: &Names) -> Result<Process, Wrong> {
    let mut names = Names::default();
    for declared in &own.declared {
        match &declared.kind {
            Type::Channel => return Err((declared.names[0].at, "a channel in a process".into())),
            Type::Clock => names.clocks(&declared.names)?,
            Type::Int(range) => {
                let (least, greatest) = ranged(range.as_ref(), declared.names[0].at)?;
                names.variables(&declared.names, least, greatest)?;
            }
        }
    }
    for state in &own.states {
        names.location(&state.name)?;
    }
    let kinds = Kinds { own: &names, outer };
    let initial = kinds.location(&own.init)?;
    let locations = own.states.iter().map(|state| kinds.state(state));
    let locations = locations.collect::<Result<_, Wrong>>()?;
    let transitions = own.transitions.iter().map(|own| kinds.transition(own));
    let transitions = transitions.collect::<Result<_, Wrong>>()?;
    Ok(Process {
        name: own.name.name.clone(),
        locations,
        initial,
        transitions,
        clocks: names.clock_names(),
        variables: names.into_variables(),
    })
}

/// The range of numbers: that of 16 bits where none is written, as the tool has it.
fn ranged(
    range: Option<&(crate::expression::Expression, crate::expression::Expression)>,
    at: usize,
) -> Result<(i32, i32), Wrong> {
    let Some((least, greatest)) = range else {
        return Ok((-32768, 32767));
    };
    let (least, greatest) = (kinds::constant(least)?, kinds::constant(greatest)?);
    match least <= 0 && 0 <= greatest {
        true => Ok((least, greatest)),
        false => Err((at, "a range without the 0 that it starts with".into())),
    }
}
