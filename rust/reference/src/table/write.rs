//! The writer: the bytes of a table.

use super::*;

/// The bytes of a table, its lengths and counts put in. Nothing is tried: a
/// table out of range gives bytes that the reader refuses. Lengths and counts
/// that their fields cannot hold lose their upper bits. The bands are written
/// as they are, fewer or more than there are channels, if the version has any, and so
/// are the budgets.
pub fn write_table(table: &Table) -> Vec<u8> {
    let mut bytes = vec![
        table.version,
        0,
        0,
        table.components.len() as u8,
        table.channels,
        (table.horizon >> 8) as u8,
        table.horizon as u8,
    ];
    if Table::has_bands(table.version) {
        bytes.extend(&table.bands);
    }
    for component in &table.components {
        write_component(component, table.version, &mut bytes);
    }
    set_length(&mut bytes, 1, 0);
    bytes
}

fn write_component(component: &Component, version: u8, out: &mut Vec<u8>) {
    let start = out.len();
    out.extend([
        0,
        0,
        component.locations.len() as u8,
        component.initial,
        component.clocks,
        component.variables,
        component.edges.len() as u8,
    ]);
    for location in &component.locations {
        out.push(location.clock);
        out.extend(location.bound.to_be_bytes());
    }
    for edge in &component.edges {
        write_edge(edge, version, out);
    }
    set_length(out, start, start);
}

fn write_edge(edge: &Edge, version: u8, out: &mut Vec<u8>) {
    let (kind, items) = match &edge.action {
        Action::Internal(updates) => (0, updates.len()),
        Action::Send(_) => (1, 1),
        Action::Receive(pairs) => (2, pairs.len()),
    };
    out.extend([
        kind,
        edge.source,
        edge.destination,
        edge.mask,
        edge.clock_bounds.len() as u8,
        edge.data_bounds.len() as u8,
        items as u8,
    ]);
    if Table::has_budgets(version) {
        out.extend(edge.budget.to_be_bytes());
    }
    for bound in edge.clock_bounds.iter() {
        out.push(bound.clock);
        out.extend(bound.low.to_be_bytes());
        out.extend(bound.high.unwrap_or(NO_HIGH).to_be_bytes());
    }
    for bound in edge.data_bounds.iter() {
        out.push(bound.variable);
        out.extend(bound.low.to_be_bytes());
        out.extend(bound.high.to_be_bytes());
    }
    write_items(&edge.action, out);
}

fn write_items(action: &Action, out: &mut Vec<u8>) {
    match action {
        Action::Internal(updates) => {
            for update in updates.iter() {
                out.extend([update.variable, update.operation as u8]);
                out.extend(update.number.to_be_bytes());
            }
        }
        Action::Send(channel) => out.push(*channel),
        Action::Receive(pairs) => {
            for pair in pairs.iter() {
                out.extend([pair.channel, pair.location]);
            }
        }
    }
}

/// Puts the length from `start` to the end into the two bytes at `field`.
fn set_length(bytes: &mut [u8], field: usize, start: usize) {
    let length = (bytes.len() - start) as u16;
    bytes[field..field + 2].copy_from_slice(&length.to_be_bytes());
}
