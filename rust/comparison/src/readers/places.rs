//! Where a table is refused, as the numbers that are compared.

use reference::calls;
use reference::opening::{NoCandidate, OpeningFault, RefusedOpening};
use reference::place::Place;

/// Where checks 4 to 6 stop: number, component, part, edge, index, start, offset,
/// width, value, least, limit, unbounded; [`NONE`] for no edge and for no index.
pub type PlaceNumbers = [u32; 12];
/// Where checks 7 to 9 stop: number, component, passage, tick, location, four clocks,
/// four variables, leaving, blocked, windowless, edge, update; [`NONE`] for no edge and
/// for no update.
pub type OpeningNumbers = [i64; 18];

/// The number of an edge, an index or an update that there is not.
pub const NONE: u8 = 255;

/// Where the library says that checks 4 to 6 stop.
pub fn library_place(table: &[u8]) -> Option<PlaceNumbers> {
    let place = timed_network::refusal_place(table)?;
    let [number, component, part] =
        [place.number, place.component, place.part.number()].map(u32::from);
    let [edge, index] = [place.edge, place.index].map(|number| number.unwrap_or(NONE).into());
    let [start, offset, width] = [place.start, place.offset, place.width];
    let [value, least, limit] = [place.value, place.least, place.limit];
    let unbounded = place.unbounded.into();
    Some([
        number, component, part, edge, index, start, offset, width, value, least, limit, unbounded,
    ])
}

/// Where the second implementation says that checks 4 to 6 stop.
pub fn second_place(table: &[u8]) -> Option<PlaceNumbers> {
    let Place {
        number,
        component,
        part,
        edge,
        index,
        start,
        offset,
        width,
        value,
        least,
        limit,
        unbounded,
    } = calls::refusal_place(table)?;
    let [number, component, part] = [number, component, part as u8].map(u32::from);
    let [edge, index] = [edge, index].map(|number| number.unwrap_or(NONE).into());
    let unbounded = unbounded.into();
    Some([
        number, component, part, edge, index, start, offset, width, value, least, limit, unbounded,
    ])
}

/// Where the library says that checks 7 to 9 stop.
pub fn library_opening(table: &[u8]) -> Option<OpeningNumbers> {
    let opening = timed_network::refused_opening(table)?;
    let [x0, x1, x2, x3] = opening.entry.clocks.map(i64::from);
    let [v0, v1, v2, v3] = opening.entry.values.map(i64::from);
    let (edge, update) = opening.overflow.unwrap_or((NONE, NONE));
    let of_fault = [
        opening.leaving,
        opening.blocked,
        opening.windowless,
        edge,
        update,
    ];
    let [leaving, blocked, windowless, edge, update] = of_fault.map(i64::from);
    let of_entry = [
        opening.number,
        opening.entry.component,
        opening.entry.location,
    ];
    let [number, component, location] = of_entry.map(i64::from);
    let [passage, tick] = [opening.passage, opening.tick].map(i64::from);
    Some([
        number, component, passage, tick, location, x0, x1, x2, x3, v0, v1, v2, v3, leaving,
        blocked, windowless, edge, update,
    ])
}

/// Where the second implementation says that checks 7 to 9 stop.
pub fn second_opening(table: &[u8]) -> Option<OpeningNumbers> {
    let opening = calls::refused_opening(table)?;
    let RefusedOpening {
        passage,
        component,
        tick,
        entry,
        fault,
    } = opening;
    let [x0, x1, x2, x3] = entry.clocks.map(i64::from);
    let [v0, v1, v2, v3] = entry.variables.map(i64::from);
    let [leaving, blocked, windowless, edge, update] = of_fault(fault).map(|number| number as i64);
    let [number, component, location] =
        [opening.number(), component, entry.location].map(i64::from);
    let (passage, tick) = (passage as i64, tick.into());
    Some([
        number, component, passage, tick, location, x0, x1, x2, x3, v0, v1, v2, v3, leaving,
        blocked, windowless, edge, update,
    ])
}

/// The last five numbers.
fn of_fault(fault: OpeningFault) -> [usize; 5] {
    let none = NONE.into();
    match fault {
        OpeningFault::TooMany => [0, 0, 0, none, none],
        OpeningFault::NoCandidate(NoCandidate {
            leaving,
            blocked,
            windowless,
        }) => [leaving, blocked, windowless, none, none],
        OpeningFault::OutOfRange { edge, update } => [0, 0, 0, edge, update],
    }
}
