//! Rings: components that go round in their locations without a message, so that
//! everything comes again, or never does because of one clock or one variable.

use crate::random::Random;
use reference::table::*;

/// Up to so many rings, with a horizon about where all of them meet again.
pub fn rings(random: &mut Random, most: usize) -> Table {
    let components: Vec<Component> = (0..random.within(1..=most)).map(|_| ring(random)).collect();
    let rounds: Vec<u32> = components.iter().map(round).collect();
    let together = rounds
        .iter()
        .fold(1, |all, own| all / divisor(all, *own) * own);
    let times = random.within(1..=3) as u32;
    let near = random.below(5) as u32;
    let horizon = (together * times + near).saturating_sub(1);
    Table {
        version: 1,
        bands: Vec::new(),
        channels: 0,
        components,
        horizon: horizon.clamp(1, 2000) as u16,
    }
}

/// The ticks of a round: each location's bound, of those that are passed again.
fn round(component: &Component) -> u32 {
    let again = component.edges.iter().map(|edge| edge.destination);
    let first = usize::from(again.min().unwrap_or(0));
    let bounds = component.locations[first..].iter();
    bounds.map(|location| u32::from(location.bound)).sum()
}

fn divisor(one: u32, other: u32) -> u32 {
    match other {
        0 => one,
        _ => divisor(other, one % other),
    }
}

/// One ring of up to four locations, now and then with one before it that is never
/// entered again, with a second clock, and with a variable that counts.
fn ring(random: &mut Random) -> Component {
    let locations = random.within(1..=4);
    let first = usize::from(locations > 1 && random.once_in(3));
    let clocks = random.pick(&[1, 1, 2, 3, 4]);
    let mut component = Component {
        initial: 0,
        clocks,
        variables: 0,
        locations: Vec::new(),
        edges: Vec::new(),
    };
    for number in 0..locations {
        let bound = random.within(1..=6) as u16;
        component.locations.push(Location { clock: 0, bound });
        let next = if number + 1 < locations {
            number + 1
        } else {
            first
        };
        component.edges.push(step(random, number, next, bound));
    }
    reset_others(random, &mut component);
    if random.once_in(3) {
        count(random, &mut component);
    }
    component
}

/// An internal edge that resets the first clock, with a window that ends at the bound.
fn step(random: &mut Random, source: usize, destination: usize, bound: u16) -> Edge {
    let low = ClockBound {
        clock: 0,
        low: random.below(bound.into()) as u16,
        high: None,
    };
    Edge {
        source: source as u8,
        destination: destination as u8,
        mask: 1,
        clock_bounds: [low].into_iter().collect(),
        ..Edge::default()
    }
}

/// Lets some edges reset the other clocks: mostly one of the last, now and then none, so
/// that the clock never comes back.
fn reset_others(random: &mut Random, component: &mut Component) {
    for clock in 1..component.clocks {
        if random.once_in(6) {
            continue;
        }
        let last = component.edges.len() - 1;
        let place = random.pick(&[last, last, random_place(last)]);
        component.edges[place].mask |= 1 << clock;
    }
}

/// A place up to the last, the first of two where there are two.
fn random_place(last: usize) -> usize {
    last / 2
}

/// Lets the last edge count a variable up to a limit, at which another one like it sets
/// it back: to 0, to another number, or never.
fn count(random: &mut Random, component: &mut Component) {
    let limit = random.within(1..=3) as i16;
    let back = random.pick(&[Some(0), Some(0), Some(1), Some(limit), None]);
    component.variables = 1;
    let last = component.edges.len() - 1;
    let update = |operation, number| Update {
        variable: 0,
        operation,
        number,
    };
    let guard = |low, high| DataBound {
        variable: 0,
        low,
        high,
    };
    let mut other = component.edges[last];
    let counting = &mut component.edges[last];
    counting.action = Action::Internal([update(Operation::Add, 1)].into_iter().collect());
    let Some(number) = back else {
        return;
    };
    counting.data_bounds = [guard(i16::MIN, limit - 1)].into_iter().collect();
    other.data_bounds = [guard(limit, i16::MAX)].into_iter().collect();
    other.action = Action::Internal([update(Operation::Set, number)].into_iter().collect());
    component.edges.push(other);
}

/// A component that passes once in many ticks, alone or beside another one: few passages
/// even to the largest horizon.
pub fn slow(random: &mut Random) -> Table {
    let loops = |bound: u16| Component {
        initial: 0,
        clocks: 1,
        variables: 0,
        locations: vec![Location { clock: 0, bound }],
        edges: vec![Edge {
            mask: 1,
            ..Edge::default()
        }],
    };
    let bound = random.pick(&[30_000, 29_999, 20_000, 59_999]);
    let mut components = vec![loops(bound)];
    if random.once_in(2) {
        components.push(loops(random.pick(&[bound, bound / 2, 15_000])));
    }
    Table {
        version: 1,
        bands: Vec::new(),
        channels: 0,
        components,
        horizon: random.pick(&[MAX_TICKS, MAX_TICKS, bound + 1]),
    }
}
