//! All steps of a table's network, and all moves of a text's, from one state.

use reference::network::{step, State, Step};
use reference::table::{Action, Table};
use xta::network::{self, moves, Move, OutOfRange};
use xta::System;

/// What moves.
#[derive(Clone, Copy, Debug, PartialEq, Eq)]
pub(crate) enum Kind {
    /// The tick.
    Delay,
    /// A process alone.
    Alone(usize),
    /// A process that sends, and one that receives.
    Joint(usize, usize),
}

/// The moves of a text's network.
pub(crate) fn moves_of_text(
    system: &System,
    state: &network::State,
) -> Result<Vec<(Kind, network::State)>, OutOfRange> {
    let kind = |step: Move| match step {
        Move::Delay => Kind::Delay,
        Move::Alone { process, .. } => Kind::Alone(process),
        Move::Joint { sender, receiver } => Kind::Joint(sender.0, receiver.0),
    };
    let moves = moves(system, state)?.into_iter();
    Ok(moves.map(|(step, next)| (kind(step), next)).collect())
}

/// The steps of a table's network that enter no location with its invariant broken, and
/// how many others there are.
pub(crate) fn moves_of_table(table: &Table, state: &State) -> (Vec<(Kind, State)>, usize) {
    let mut found = Vec::new();
    let mut broken = 0;
    for tried in all_steps(table) {
        let Some(next) = step(table, state, tried) else {
            continue;
        };
        match tried {
            Step::Out { component } if !enters_well(table, &next, component) => broken += 1,
            _ => found.push((kind(tried), next)),
        }
    }
    (found, broken)
}

fn kind(step: Step) -> Kind {
    match step {
        Step::Tick => Kind::Delay,
        Step::Alone { component, .. } | Step::Out { component } => Kind::Alone(component.into()),
        Step::Joint {
            sender, receiver, ..
        } => Kind::Joint(sender.into(), receiver.into()),
    }
}

/// Whether the invariant of the location that a component has entered holds.
fn enters_well(table: &Table, state: &State, component: u8) -> bool {
    let place = &state.places[usize::from(component)];
    let own = &table.components[usize::from(component)];
    let location = &own.locations[usize::from(place.location)];
    place.clocks[usize::from(location.clock)] <= u32::from(location.bound)
}

/// Every step that there could be.
fn all_steps(table: &Table) -> Vec<Step> {
    let mut steps = vec![Step::Tick];
    let edges = all_edges(table);
    for &(component, edge, _) in &edges {
        steps.push(Step::Alone { component, edge });
    }
    for &(sender, send, _) in edges.iter().filter(|edge| edge.2) {
        for &(receiver, receive, _) in &edges {
            steps.push(Step::Joint {
                sender,
                send,
                receiver,
                receive,
            });
        }
    }
    let components = 0..table.components.len() as u8;
    steps.extend(components.map(|component| Step::Out { component }));
    steps
}

/// Each component with each of its edges, and whether that sends.
fn all_edges(table: &Table) -> Vec<(u8, u8, bool)> {
    let components = (0..).zip(&table.components);
    let edges = components.flat_map(|(number, component)| {
        let edges = (0..).zip(&component.edges);
        edges.map(move |(edge, own)| (number, edge, matches!(own.action, Action::Send(_))))
    });
    edges.collect()
}
