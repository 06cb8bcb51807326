//! The reader that builds the table.

use super::parts::{header, Head, Header, Kind, Part, Reader};
use super::*;

/// Reads a table with checks 1 to 6: "reading front to back, the first fault
/// counts".
pub fn read_table(bytes: &[u8]) -> Result<Table, Refusal> {
    let (header, mut reader) = header(bytes)?;
    let mut components = Vec::with_capacity(header.components.into());
    for number in 0..header.components {
        let component = read_component(&mut reader, &header);
        components.push(component.map_err(|fault| fault.of(number))?);
    }
    let last = header.components - 1;
    reader.end().map_err(|fault| fault.of(last))?;
    Ok(Table {
        version: header.version,
        bands: header.bands.to_vec(),
        channels: header.channels,
        horizon: header.horizon,
        components,
    })
}

fn read_component(table: &mut Reader, header: &Header) -> Part<Component> {
    let mut own = table.component()?;
    let head = own.head(header)?;
    let mut locations = Vec::with_capacity(head.locations.into());
    for _ in 0..head.locations {
        locations.push(own.location(&head)?);
    }
    let mut edges = vec![Edge::default(); head.edges.into()];
    for edge in &mut edges {
        read_edge(&mut own, &head, edge)?;
    }
    own.end()?;
    Ok(Component {
        initial: head.initial,
        clocks: head.clocks,
        variables: head.variables,
        locations,
        edges,
    })
}

/// Reads an edge into its place in the table.
#[inline]
fn read_edge(own: &mut Reader, head: &Head, edge: &mut Edge) -> Part<()> {
    let first = own.edge(head)?;
    edge.source = first.source;
    edge.destination = first.destination;
    edge.mask = first.mask;
    edge.budget = own.budget(head)?;
    let clock_bounds = &mut edge.clock_bounds;
    clock_bounds.fill(first.clock_bounds, || own.clock_bound(head))?;
    let data_bounds = &mut edge.data_bounds;
    data_bounds.fill(first.data_bounds, || own.data_bound(head))?;
    edge.action = read_items(own, head, first.kind)?;
    Ok(())
}

#[inline]
fn read_items(own: &mut Reader, head: &Head, kind: Kind) -> Part<Action> {
    Ok(match kind {
        Kind::Internal(count) => {
            let mut updates = List::new();
            updates.fill(count, || own.update(head))?;
            Action::Internal(updates)
        }
        Kind::Send => Action::Send(own.channel(head)?),
        Kind::Receive(count) => {
            let (mut pairs, mut seen) = (List::new(), 0);
            pairs.fill(count, || own.pair(head, &mut seen))?;
            Action::Receive(pairs)
        }
    })
}
