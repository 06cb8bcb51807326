//! Checks 1 to 6: the table's bytes decoded, "reading front to back".

use crate::table::*;
use crate::Refusal;

/// "4. Does each part fit its component, and end exactly there [...]?"
const FIT: u8 = 4;
/// "5. Is every number in its range and every mask bit a clock?"
const RANGE: u8 = 5;
/// "6. Does no receive edge list a channel twice?"
const TWICE: u8 = 6;

/// The greatest length of a table.
const LONGEST: usize = 8192;

/// What a part is refused with, or nothing.
type Part<T> = Result<T, u8>;

/// Decodes a table.
pub(crate) fn read(bytes: &[u8], table: &mut Table) -> Result<(), Refusal> {
    let (channels, mut rest) = header(bytes, table)?;
    let budgets = table.has_budgets();
    for number in 0..table.count {
        let start = bytes.len() - rest.len();
        let own = split_component(&mut rest).map_err(|fault| Refusal::of(fault, number))?;
        let component = &mut table.components[number % COMPONENTS];
        component.budgets = budgets;
        let read = read_component(own, start, channels, component);
        read.map_err(|fault| Refusal::of(fault, number))?;
    }
    if rest.is_empty() {
        Ok(())
    } else {
        Err(Refusal::of(FIT, table.count - 1))
    }
}

/// Checks 1 to 3: the channels, and the bytes behind the header and the bands.
pub(crate) fn header<'a>(bytes: &'a [u8], table: &mut Table) -> Result<(u8, &'a [u8]), Refusal> {
    let Some(version @ 1..=3) = bytes.first().copied() else {
        return Err(Refusal::whole(1));
    };
    let Some((&[_, high, low, components, channels, first, second], rest)) =
        bytes.split_first_chunk::<HEAD>()
    else {
        return Err(Refusal::whole(2));
    };
    if usize::from(two(high, low)) != bytes.len() || bytes.len() > LONGEST {
        return Err(Refusal::whole(2));
    }
    let horizon = two(first, second);
    let in_range =
        matches!(components, 1..=8) & (channels <= 16) & matches!(horizon, 1..=MAX_TICKS);
    if !in_range {
        return Err(Refusal::whole(3));
    }
    table.version = version;
    table.horizon = horizon.into();
    table.count = components.into();
    let rest = read_bands(table, channels, rest).ok_or(Refusal::whole(3))?;
    Ok((channels, rest))
}

/// The band of each channel, and the bytes behind the bands, if they fit and
/// none is above 3. In version 1 no bands stand there.
fn read_bands<'a>(table: &mut Table, channels: u8, rest: &'a [u8]) -> Option<&'a [u8]> {
    table.bands = [0; CHANNELS];
    if table.version < 2 {
        return Some(rest);
    }
    let (bands, rest) = rest.split_at_checked(channels.into())?;
    for (place, band) in table.bands.iter_mut().zip(bands) {
        *place = *band;
    }
    table.bands.iter().all(|band| *band <= 3).then_some(rest)
}

/// Splits the next component off, its two length bytes included.
fn split_component<'a>(rest: &mut &'a [u8]) -> Part<&'a [u8]> {
    let &[high, low] = rest.first_chunk().ok_or(FIT)?;
    let length = usize::from(two(high, low));
    let (own, behind) = rest.split_at_checked(length).ok_or(FIT)?;
    *rest = behind;
    Ok(own)
}

/// What the numbers of a component's parts stay below.
struct Limits {
    locations: u8,
    clocks: u8,
    variables: u8,
    channels: u8,
    budgets: bool,
}

/// Decodes a component that starts at a place of the table.
fn read_component(own: &[u8], start: usize, channels: u8, component: &mut Component) -> Part<()> {
    let mut rest = own;
    let &[_, _, locations, initial, clocks, variables, edges] = take(&mut rest)?;
    let in_range = matches!(locations, 1..=16)
        & (initial < locations)
        & matches!(clocks, 1..=4)
        & (variables <= 4)
        & matches!(edges, 1..=32);
    demand(in_range, RANGE)?;
    let limits = Limits {
        locations,
        clocks,
        variables,
        channels,
        budgets: component.budgets,
    };
    component.initial = initial;
    component.clocks = clocks;
    component.location_count = locations;
    component.edge_count = edges;
    for place in &mut component.locations[..usize::from(locations).min(LOCATIONS)] {
        *place = location(&mut rest, clocks)?;
    }
    for number in 0..usize::from(edges).min(EDGES) {
        let end = start + own.len();
        read_edge(&mut rest, end, number, &limits, component)?;
    }
    demand(rest.is_empty(), FIT)
}

/// "Location, 3 bytes: clock, and bound q (0 to 60,000)."
#[inline]
fn location(rest: &mut &[u8], clocks: u8) -> Part<Location> {
    let &[clock, high, low] = take::<LOCATION>(rest)?;
    let bound = two(high, low);
    demand((clock < clocks) & (bound <= MAX_TICKS), RANGE)?;
    Ok(Location {
        clock,
        bound,
        from: 0,
        visited: Visited::Never,
    })
}

/// Decodes an edge of a component that ends at a place of the table.
#[inline]
fn read_edge(
    rest: &mut &[u8],
    end: usize,
    number: usize,
    limits: &Limits,
    component: &mut Component,
) -> Part<()> {
    let &[kind, source, destination, mask, clock_bounds, data_bounds, items] = take::<HEAD>(rest)?;
    let in_range = (source < limits.locations)
        & (destination < limits.locations)
        & (mask >> limits.clocks == 0)
        & (clock_bounds <= 4)
        & (data_bounds <= 4);
    demand(in_range, RANGE)?;
    let kind = match kind {
        0 if items <= 4 => Kind::Internal,
        1 if items == 1 => Kind::Send,
        2 if data_bounds == 0 && matches!(items, 1..=8) => Kind::Receive,
        _ => return Err(RANGE),
    };
    component.locations[usize::from(source) % LOCATIONS].from |= 1 << number;
    let edge = &mut component.edges[number % EDGES];
    edge.budget = read_budget(rest, limits)?;
    edge.at = (end - rest.len()) as u16;
    edge.kind = kind;
    edge.source = source;
    edge.destination = destination;
    edge.mask = mask;
    edge.clock_bounds = clock_bounds;
    edge.data_bounds = data_bounds;
    edge.items = items;
    edge.highs = read_bounds(rest, limits, clock_bounds, data_bounds)?;
    edge.channels = read_items(rest, limits, kind, items)?;
    Ok(())
}

/// "a 2-byte budget (0 to 60,000), a part of its own"; 0 in versions without.
#[inline]
fn read_budget(rest: &mut &[u8], limits: &Limits) -> Part<u16> {
    if !limits.budgets {
        return Ok(0);
    }
    let &[high, low] = take::<BUDGET>(rest)?;
    let budget = two(high, low);
    demand(budget <= MAX_TICKS, RANGE)?;
    Ok(budget)
}

/// Tries the clock bounds, then the data bounds; how many have a high.
#[inline]
fn read_bounds(rest: &mut &[u8], limits: &Limits, clock_bounds: u8, data_bounds: u8) -> Part<u8> {
    let mut highs = 0;
    for _ in 0..clock_bounds {
        highs += u8::from(clock_bound(rest, limits)?);
    }
    for _ in 0..data_bounds {
        let &[variable, ..] = take::<BOUND>(rest)?;
        demand(variable < limits.variables, RANGE)?;
    }
    Ok(highs)
}

/// "Clock bound, 5 bytes: clock, low (0 to 60,000), high (0 to 60,000, or
/// 65,535 for none)." Whether it has a high.
#[inline]
fn clock_bound(rest: &mut &[u8], limits: &Limits) -> Part<bool> {
    let &[clock, a, b, c, d] = take::<BOUND>(rest)?;
    let (low, high) = (two(a, b), two(c, d));
    let has_high = high != NO_HIGH;
    let in_range = (clock < limits.clocks) & (low <= MAX_TICKS) & ((high <= MAX_TICKS) | !has_high);
    demand(in_range, RANGE)?;
    Ok(has_high)
}

/// Tries the items of an edge: the channel of a send or the channels of a
/// receive, as bits.
#[inline]
fn read_items(rest: &mut &[u8], limits: &Limits, kind: Kind, items: u8) -> Part<u16> {
    let mut channels = 0;
    match kind {
        Kind::Internal => {
            for _ in 0..items {
                let &[variable, operation, _, _] = take::<UPDATE>(rest)?;
                demand((variable < limits.variables) & (operation <= 1), RANGE)?;
            }
        }
        Kind::Send => {
            let &[channel] = take(rest)?;
            demand(channel < limits.channels, RANGE)?;
            channels = 1 << channel;
        }
        Kind::Receive => {
            for _ in 0..items {
                let &[channel, location] = take::<PAIR>(rest)?;
                let in_range = (channel < limits.channels) & (location < limits.locations);
                demand(in_range, RANGE)?;
                let bit = 1 << channel;
                demand(channels & bit == 0, TWICE)?;
                channels |= bit;
            }
        }
    }
    Ok(channels)
}

/// The next bytes, which must fit.
#[inline]
fn take<'a, const N: usize>(rest: &mut &'a [u8]) -> Part<&'a [u8; N]> {
    let (part, behind) = rest.split_first_chunk::<N>().ok_or(FIT)?;
    *rest = behind;
    Ok(part)
}

#[inline]
fn demand(holds: bool, fault: u8) -> Part<()> {
    if holds {
        Ok(())
    } else {
        Err(fault)
    }
}

#[inline]
pub(crate) fn two(high: u8, low: u8) -> u16 {
    u16::from_be_bytes([high, low])
}
