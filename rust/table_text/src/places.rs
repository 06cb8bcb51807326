//! Where the parts of a table stand: for one that passes checks 1 to 6, whose
//! parts all fit. In other bytes there may be no such place.

use crate::kind::word;

/// Bytes of the header, of the head of a component and of an edge, of a budget, of
/// a location, of a bound, and of an update.
const HEADER: usize = 7;
const COMPONENT_HEAD: usize = 7;
const EDGE_HEAD: usize = 7;
const BUDGET: usize = 2;
const LOCATION: usize = 3;
const BOUND: usize = 5;
const UPDATE: usize = 4;
/// The bytes of an item, by the edge's kind.
const ITEM: [usize; 3] = [UPDATE, 1, 2];

/// The first byte of a location.
pub fn location_start(table: &[u8], component: u8, location: u8) -> Option<usize> {
    let start = component_start(table, component)?;
    Some(start + COMPONENT_HEAD + LOCATION * usize::from(location))
}

/// The first byte of an update of an internal edge.
pub fn update_start(table: &[u8], component: u8, edge: u8, update: u8) -> Option<usize> {
    let start = edge_start(table, component, edge)?;
    Some(items_start(table, start)? + UPDATE * usize::from(update))
}

fn component_start(table: &[u8], component: u8) -> Option<usize> {
    let bands = if byte(table, 0)? < 2 {
        0
    } else {
        byte(table, 4)?
    };
    (0..component).try_fold(HEADER + bands, |start, _| Some(start + word(table, start)?))
}

/// The first byte of an edge.
pub fn edge_start(table: &[u8], component: u8, edge: u8) -> Option<usize> {
    let start = component_start(table, component)?;
    let first = start + COMPONENT_HEAD + LOCATION * byte(table, start + 2)?;
    (0..edge).try_fold(first, |start, _| {
        let item = ITEM.get(byte(table, start)?)?;
        Some(items_start(table, start)? + item * byte(table, start + 6)?)
    })
}

/// Where the items of the edge that starts there begin.
fn items_start(table: &[u8], edge: usize) -> Option<usize> {
    let bounds = byte(table, edge + 4)? + byte(table, edge + 5)?;
    let budget = if byte(table, 0)? < 3 { 0 } else { BUDGET };
    Some(edge + EDGE_HEAD + budget + BOUND * bounds)
}

fn byte(table: &[u8], place: usize) -> Option<usize> {
    table.get(place).copied().map(usize::from)
}
