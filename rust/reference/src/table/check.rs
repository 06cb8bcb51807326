//! The reader that builds nothing: checks 1 to 6 and where the parts stand.

use super::parts::{header, Head, Header, Kind, Part, Reader};
use super::*;

/// What [`check_only`] answers: the header's numbers, and where each
/// component's parts stand in the bytes.
#[derive(Clone, Copy, Debug, Default, PartialEq, Eq)]
pub struct Directory {
    /// "components (nodes) 1 to 8".
    pub components: u8,
    /// "channels 0 to 16".
    pub channels: u8,
    /// "horizon H, 1 to 60,000".
    pub horizon: u16,
    /// One entry for each component; those past the last are all 0.
    pub entries: [Entry; MAX_COMPONENTS],
}

/// Where one component's parts stand, and how many there are.
#[derive(Clone, Copy, Debug, Default, PartialEq, Eq)]
pub struct Entry {
    /// The offset of its first location, counted from the table's first byte.
    pub first_location: u16,
    /// The offset of its first edge, counted from the table's first byte.
    pub first_edge: u16,
    /// The number of its locations.
    pub locations: u8,
    /// "initial location".
    pub initial: u8,
    /// The number of its clocks.
    pub clocks: u8,
    /// The number of its variables.
    pub variables: u8,
    /// The number of its edges.
    pub edges: u8,
}

/// The same checks 1 to 6 as [`read_table`], with the same refusals, but
/// without building a table.
pub fn check_only(bytes: &[u8]) -> Result<Directory, Refusal> {
    let (header, mut reader) = header(bytes)?;
    let mut directory = Directory {
        components: header.components,
        channels: header.channels,
        horizon: header.horizon,
        ..Directory::default()
    };
    for number in 0..header.components {
        let start = bytes.len() - reader.left();
        let entry = check_component(&mut reader, &header, start);
        directory.entries[number as usize] = entry.map_err(|fault| fault.of(number))?;
    }
    let last = header.components - 1;
    reader.end().map_err(|fault| fault.of(last))?;
    Ok(directory)
}

fn check_component(table: &mut Reader, header: &Header, start: usize) -> Part<Entry> {
    let mut own = table.component()?;
    let head = own.head(header)?;
    for _ in 0..head.locations {
        own.location(&head)?;
    }
    for _ in 0..head.edges {
        check_edge(&mut own, &head)?;
    }
    own.end()?;
    let first_location = start as u16 + 7;
    Ok(Entry {
        first_location,
        first_edge: first_location + 3 * u16::from(head.locations),
        locations: head.locations,
        initial: head.initial,
        clocks: head.clocks,
        variables: head.variables,
        edges: head.edges,
    })
}

#[inline]
fn check_edge(own: &mut Reader, head: &Head) -> Part<()> {
    let edge = own.edge(head)?;
    own.budget(head)?;
    for _ in 0..edge.clock_bounds {
        own.clock_bound(head)?;
    }
    for _ in 0..edge.data_bounds {
        own.data_bound(head)?;
    }
    match edge.kind {
        Kind::Internal(count) => {
            for _ in 0..count {
                own.update(head)?;
            }
        }
        Kind::Send => {
            own.channel(head)?;
        }
        Kind::Receive(count) => {
            let mut seen = 0;
            for _ in 0..count {
                own.pair(head, &mut seen)?;
            }
        }
    }
    Ok(())
}
