//! The edge that is taken from a location, and its bounds.

use crate::read::two;
use crate::table::*;

/// The edge taken, with its window counted from the entry.
#[derive(Clone, Copy)]
pub(crate) struct Taken {
    pub(crate) edge: u8,
    pub(crate) ready: i32,
    pub(crate) end: i32,
}

/// Clocks and variables at the entry of a location.
type Values<'a> = (&'a Clocks, &'a Variables);

/// "The candidate with the least ready is taken, on a tie the lowest number."
/// When a location is entered first the bounds are read from the table's
/// bytes, later they are decoded.
#[inline]
pub(crate) fn taken(
    component: &mut Component,
    location: u8,
    bytes: &[u8],
    values: Values,
) -> Option<Taken> {
    let place = &mut component.locations[usize::from(location) % LOCATIONS];
    match place.visited {
        Visited::Never => {
            place.visited = Visited::Once;
            return taken_first(component, location, bytes, values);
        }
        Visited::Once => decode(component, location, bytes),
        Visited::Again => {}
    }
    let (clocks, variables) = values;
    let signed = signed(clocks);
    best(component.location(location).from, |number| {
        let edge = &component.edges[number % EDGES];
        let (ready, end) = window(edge, &signed);
        let holds = edge.has_time(ready, end) && data_bounds_hold(edge, variables);
        holds.then_some((ready, end))
    })
}

/// The candidate with the least ready among edges, given the windows of the
/// candidates. One that is ready at once is not outdone by a later one.
#[inline]
fn best(edges: u32, candidate: impl Fn(usize) -> Option<(i32, i32)>) -> Option<Taken> {
    let mut best: Option<Taken> = None;
    let mut least = i32::MAX;
    for number in Bits(edges) {
        let Some((ready, end)) = candidate(number) else {
            continue;
        };
        if ready < least {
            least = ready;
            best = Some(Taken {
                edge: number as u8,
                ready,
                end,
            });
            if ready == 0 {
                break;
            }
        }
    }
    best
}

/// The edge taken from a location that is entered first.
#[cold]
fn taken_first(
    component: &Component,
    location: u8,
    bytes: &[u8],
    (clocks, variables): Values,
) -> Option<Taken> {
    let place = component.location(location);
    best(place.from, |number| {
        let edge = &component.edges[number % EDGES];
        let (ready, end) = window_read(place, edge, bytes, clocks);
        let candidate =
            edge.has_time(ready, end) && first_failing(edge, bytes, variables).is_none();
        candidate.then_some((ready, end))
    })
}

/// The first and the last tick at which invariant and clock bounds hold, counted from
/// the entry, by the bounds as they stand in the table's bytes.
#[inline]
pub(crate) fn window_read(
    location: &Location,
    edge: &Edge,
    bytes: &[u8],
    clocks: &Clocks,
) -> (i32, i32) {
    let left = |clock: u8, bound: u16| i32::from(bound) - clocks[usize::from(clock) % CLOCKS];
    let (mut ready, mut end) = (0, left(location.clock, location.bound));
    for &[clock, a, b, c, d] in edge.clock_bounds(bytes) {
        ready = ready.max(left(clock, two(a, b)));
        if two(c, d) != NO_HIGH {
            end = end.min(left(clock, two(c, d)));
        }
    }
    (ready, end)
}

/// The number of the first of an edge's data bounds that fails, as they stand in the
/// table's bytes.
#[inline]
pub(crate) fn first_failing(edge: &Edge, bytes: &[u8], variables: &Variables) -> Option<u8> {
    let fails = |&[variable, a, b, c, d]: &[u8; BOUND]| {
        let value = variables[usize::from(variable) % VARIABLES];
        !(two(a, b) as i16..=two(c, d) as i16).contains(&value)
    };
    let first = edge.data_bounds(bytes).iter().position(fails)?;
    Some(first as u8)
}

/// The first and the last tick at which invariant and clock bounds hold,
/// counted from the entry. There is none if the first lies past the last.
/// What is left to a low and what lies behind a high are greatest together:
/// half against half, then quarter against quarter.
#[inline]
fn window(edge: &Edge, signed: &Bounds) -> (i32, i32) {
    let mut left = [0; 2 * CLOCKS];
    for (place, left) in left.iter_mut().enumerate() {
        *left = edge.bounds[place] - signed[place];
    }
    let [a, b, c, d, e, f, g, h] = left;
    let [a, b, c, d] = [a.max(e), b.max(f), c.max(g), d.max(h)];
    (a.max(c).max(0), -b.max(d))
}

/// Each clock, then the same with its sign changed.
#[inline]
fn signed(&[a, b, c, d]: &Clocks) -> Bounds {
    [a, -a, b, -b, c, -c, d, -d]
}

/// Whether the data bounds hold. Those of a variable hold together if it is
/// between the greatest low and the least high.
#[inline]
fn data_bounds_hold(edge: &Edge, variables: &Variables) -> bool {
    let bounds = edge.data_low.iter().zip(&edge.data_high);
    let mut hold = true;
    for (value, (low, high)) in variables.iter().zip(bounds) {
        hold &= (low <= value) & (value <= high);
    }
    hold
}

/// The bounds of an edge that has none.
const NO_BOUNDS: Bounds = [0, -FAR, 0, -FAR, 0, -FAR, 0, -FAR];

/// Decodes the bounds of all edges from a location.
#[cold]
fn decode(component: &mut Component, location: u8, bytes: &[u8]) {
    let location = &mut component.locations[usize::from(location) % LOCATIONS];
    location.visited = Visited::Again;
    for number in Bits(location.from) {
        let edge = &mut component.edges[number % EDGES];
        edge.bounds = NO_BOUNDS;
        edge.bounds[2 * (usize::from(location.clock) % CLOCKS) + 1] = -i32::from(location.bound);
        for &[clock, a, b, c, d] in edge.clock_bounds(bytes) {
            bound_clock(&mut edge.bounds, clock, two(a, b), two(c, d));
        }
        edge.data_low = [i16::MIN; VARIABLES];
        edge.data_high = [i16::MAX; VARIABLES];
        for &[variable, a, b, c, d] in edge.data_bounds(bytes) {
            let variable = usize::from(variable) % VARIABLES;
            let (low, high) = (two(a, b) as i16, two(c, d) as i16);
            edge.data_low[variable] = edge.data_low[variable].max(low);
            edge.data_high[variable] = edge.data_high[variable].min(high);
        }
    }
}

/// One bound more on a clock.
#[inline]
fn bound_clock(bounds: &mut Bounds, clock: u8, low: u16, high: u16) {
    let place = 2 * (usize::from(clock) % CLOCKS);
    bounds[place] = bounds[place].max(low.into());
    if high != NO_HIGH {
        bounds[place + 1] = bounds[place + 1].max(-i32::from(high));
    }
}

/// The variables after the updates of an internal edge, in order; nothing if
/// one of them leaves the range.
#[inline]
pub(crate) fn updated(edge: &Edge, bytes: &[u8], variables: &Variables) -> Option<Variables> {
    let mut variables = *variables;
    for bytes in edge.updates(bytes) {
        update(bytes, &mut variables)?;
    }
    Some(variables)
}

/// The number of the first update that leaves the range, where one does.
pub(crate) fn first_out_of_range(edge: &Edge, bytes: &[u8], variables: &Variables) -> u8 {
    let mut variables = *variables;
    let stays = |bytes: &&[u8; UPDATE]| update(bytes, &mut variables).is_some();
    edge.updates(bytes).iter().take_while(stays).count() as u8
}

/// One update; nothing if it leaves the range.
#[inline]
fn update(
    &[variable, operation, high, low]: &[u8; UPDATE],
    variables: &mut Variables,
) -> Option<()> {
    let place = &mut variables[usize::from(variable) % VARIABLES];
    let number = two(high, low) as i16;
    *place = match operation {
        0 => number,
        _ => place.checked_add(number)?,
    };
    Some(())
}
