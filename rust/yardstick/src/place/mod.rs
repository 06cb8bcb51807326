//! Where checks 4 to 6 stop: one walk along the bytes, which decodes nothing. A part's
//! numbers are tried together; which of them is at fault is asked once one is (`fault`).

mod fault;

use crate::read::two;
use crate::table::*;
use crate::NONE;
use fault::place;

/// A part of a table by its number, 1 to 12.
pub mod part {
    /// A component's length.
    pub const LENGTH: u8 = 1;
    /// A component's first 7 bytes.
    pub const HEAD: u8 = 2;
    /// A location.
    pub const LOCATION: u8 = 3;
    /// An edge's 7 bytes.
    pub const EDGE: u8 = 4;
    /// A clock bound.
    pub const CLOCK_BOUND: u8 = 5;
    /// A data bound.
    pub const DATA_BOUND: u8 = 6;
    /// An update.
    pub const UPDATE: u8 = 7;
    /// A channel.
    pub const CHANNEL: u8 = 8;
    /// A pair.
    pub const PAIR: u8 = 9;
    /// A component's end.
    pub const COMPONENT_END: u8 = 10;
    /// The table's end.
    pub const TABLE_END: u8 = 11;
    /// An edge's budget.
    pub const BUDGET: u8 = 12;
}

/// Where one of checks 4 to 6 is not passed.
#[derive(Clone, Copy, Debug, PartialEq, Eq)]
pub struct Place {
    /// The number of the check.
    pub number: u8,
    /// The component that is read.
    pub component: u8,
    /// The part that is read.
    pub part: u8,
    /// The edge that the part belongs to, or [`NONE`].
    pub edge: u8,
    /// Which location, bound, update, channel or pair it is, or [`NONE`].
    pub index: u8,
    /// Whether 65,535 is allowed too.
    pub unbounded: bool,
    /// The place in the table of the part's first byte.
    pub start: u32,
    /// The place in the part of the number at fault.
    pub offset: u32,
    /// The bytes of that number; 0 where it is how many bytes there are.
    pub width: u32,
    /// What stands there, or how many bytes there are.
    pub value: u32,
    /// The least that is allowed.
    pub least: u32,
    /// What is allowed lies below this.
    pub limit: u32,
}

/// A part at which the walk of a component stops.
struct Stop {
    part: u8,
    edge: u8,
    index: u8,
    /// The place of its first byte in the component.
    at: usize,
}

/// What the numbers of a component's parts stay below.
#[derive(Clone, Copy, Default)]
struct Limits {
    locations: u8,
    clocks: u8,
    variables: u8,
    channels: u8,
    budgets: bool,
}

/// Where checks 4 to 6 stop in a table whose header was read, with so many channels and
/// the first component at a place.
pub(crate) fn locate(bytes: &[u8], table: &Table, channels: u8, first: usize) -> Option<Place> {
    let (count, budgets) = (table.count, table.has_budgets());
    let mut start = first;
    for component in 0..count {
        let rest = &bytes[start..];
        let Some(&[high, low]) = rest.first_chunk() else {
            return Some(too_short(part::LENGTH, component, start, rest.len(), 2));
        };
        let length = usize::from(two(high, low));
        let Some(own) = rest.get(..length) else {
            return Some(too_long(component, start, length, rest.len()));
        };
        let mut limits = Limits {
            channels,
            budgets,
            ..Limits::default()
        };
        if let Err(stop) = walk(own, &mut limits) {
            return Some(place(own, &stop, &limits, component, start));
        }
        start += length;
    }
    let left = bytes.len() - start;
    (left > 0).then(|| left_over(part::TABLE_END, count - 1, start, left))
}

/// A place with nothing said of a number.
fn somewhere(part: u8, component: usize, start: usize) -> Place {
    Place {
        number: 4,
        component: component as u8,
        part,
        edge: NONE,
        index: NONE,
        unbounded: false,
        start: start as u32,
        offset: 0,
        width: 0,
        value: 0,
        least: 0,
        limit: 1,
    }
}

/// A part with too few bytes.
#[cold]
fn too_short(part: u8, component: usize, start: usize, there: usize, size: u32) -> Place {
    Place {
        value: there as u32,
        least: size,
        limit: 8193,
        ..somewhere(part, component, start)
    }
}

/// A component that states more bytes than there are.
#[cold]
fn too_long(component: usize, start: usize, length: usize, there: usize) -> Place {
    Place {
        width: 2,
        value: length as u32,
        limit: there as u32 + 1,
        ..somewhere(part::LENGTH, component, start)
    }
}

/// Bytes where a component or the table should end.
#[cold]
fn left_over(part: u8, component: usize, start: usize, left: usize) -> Place {
    Place {
        value: left as u32,
        ..somewhere(part, component, start)
    }
}

/// A part that does not pass: which one, its index, and how many bytes of the component
/// there are from its first byte on.
type Unfit = (u8, u8, usize);

/// Takes the next part of a component off the rest of it. Where it does not fit, or its
/// numbers do not, the rest before it tells where it stands.
#[inline]
fn take<'a, const N: usize>(
    rest: &mut &'a [u8],
    part: u8,
    index: u8,
    fits: impl FnOnce(&[u8; N]) -> bool,
) -> Result<&'a [u8; N], Unfit> {
    match rest.split_first_chunk::<N>() {
        Some((own, behind)) if fits(own) => {
            *rest = behind;
            Ok(own)
        }
        _ => Err((part, index, rest.len())),
    }
}

/// Walks along a component's bytes, and notes its limits once they are known.
#[inline]
fn walk(own: &[u8], limits: &mut Limits) -> Result<(), Stop> {
    let stop = |edge, (part, index, left): Unfit| Stop {
        part,
        edge,
        index,
        at: own.len() - left,
    };
    let mut rest = own;
    let rest = &mut rest;
    let outside = |unfit| stop(NONE, unfit);
    let head = |head: &[u8; HEAD]| head_fits(head, limits);
    let &[.., edges] = take(rest, part::HEAD, NONE, head).map_err(outside)?;
    for index in 0..limits.locations {
        let fits =
            |&[clock, a, b]: &[u8; LOCATION]| (clock < limits.clocks) & (two(a, b) <= MAX_TICKS);
        take(rest, part::LOCATION, index, fits).map_err(outside)?;
    }
    for edge in 0..edges {
        walk_edge(rest, limits).map_err(|unfit| stop(edge, unfit))?;
    }
    match rest.len() {
        0 => Ok(()),
        left => Err(outside((part::COMPONENT_END, NONE, left))),
    }
}

/// Whether the numbers of a component's first 7 bytes are in range; the limits that
/// they give.
#[inline]
fn head_fits(
    &[_, _, locations, initial, clocks, variables, edges]: &[u8; HEAD],
    limits: &mut Limits,
) -> bool {
    limits.locations = locations;
    limits.clocks = clocks;
    limits.variables = variables;
    matches!(locations, 1..=16)
        & (initial < locations)
        & matches!(clocks, 1..=4)
        & (variables <= 4)
        & matches!(edges, 1..=32)
}

/// Walks along an edge.
#[inline]
fn walk_edge(rest: &mut &[u8], limits: &Limits) -> Result<(), Unfit> {
    let head = |head: &[u8; HEAD]| edge_fits(head, limits);
    let &[kind, _, _, _, clock_bounds, data_bounds, items] = take(rest, part::EDGE, NONE, head)?;
    if limits.budgets {
        let fits = |&[high, low]: &[u8; BUDGET]| two(high, low) <= MAX_TICKS;
        take(rest, part::BUDGET, NONE, fits)?;
    }
    for index in 0..clock_bounds {
        let fits = |bound: &[u8; BOUND]| clock_bound_fits(bound, limits);
        take(rest, part::CLOCK_BOUND, index, fits)?;
    }
    for index in 0..data_bounds {
        let fits = |bound: &[u8; BOUND]| bound[0] < limits.variables;
        take(rest, part::DATA_BOUND, index, fits)?;
    }
    walk_items(rest, limits, kind, items)
}

#[inline]
fn edge_fits(
    &[kind, source, destination, mask, clock_bounds, data_bounds, items]: &[u8; HEAD],
    limits: &Limits,
) -> bool {
    let counted = match kind {
        0 => items <= 4,
        1 => items == 1,
        2 => (data_bounds == 0) & matches!(items, 1..=8),
        _ => false,
    };
    counted
        & (source < limits.locations)
        & (destination < limits.locations)
        & (mask >> limits.clocks == 0)
        & (clock_bounds <= 4)
        & (data_bounds <= 4)
}

#[inline]
fn clock_bound_fits(&[clock, a, b, c, d]: &[u8; BOUND], limits: &Limits) -> bool {
    let high = two(c, d);
    (clock < limits.clocks) & (two(a, b) <= MAX_TICKS) & ((high <= MAX_TICKS) | (high == NO_HIGH))
}

/// Walks along the items of an edge.
#[inline]
fn walk_items(rest: &mut &[u8], limits: &Limits, kind: u8, items: u8) -> Result<(), Unfit> {
    match kind {
        0 => {
            for index in 0..items {
                let fits = |&[variable, operation, ..]: &[u8; UPDATE]| {
                    (variable < limits.variables) & (operation <= 1)
                };
                take(rest, part::UPDATE, index, fits)?;
            }
        }
        1 => {
            let fits = |channel: &[u8; 1]| channel[0] < limits.channels;
            take(rest, part::CHANNEL, 0, fits)?;
        }
        _ => {
            let mut listed = 0u32;
            for index in 0..items {
                let fits = |&[channel, location]: &[u8; PAIR]| {
                    let again = listed >> (channel & 31) & 1 == 1;
                    (channel < limits.channels) & (location < limits.locations) & !again
                };
                let &[channel, _] = take(rest, part::PAIR, index, fits)?;
                listed |= 1 << (channel & 31);
            }
        }
    }
    Ok(())
}
