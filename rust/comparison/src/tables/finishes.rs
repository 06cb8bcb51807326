//! Tables for finish ticks: components whose windows have several ticks, with works of
//! several statements, alone or beside chains of messages.

use super::chains;
use crate::random::Random;
use reference::table::*;

/// Components that work in rounds, and send and hear nothing.
pub fn workers(random: &mut Random) -> Table {
    let components: Vec<Component> = (0..random.within(1..=3)).map(|_| worker(random)).collect();
    Table {
        version: 1,
        bands: Vec::new(),
        channels: 0,
        horizon: random.within(20..=150) as u16,
        components,
    }
}

/// A chain of messages that is often accepted at a spread, in which components that
/// work alone stand behind the others.
pub fn chain_with_workers(random: &mut Random, spread: u32) -> Table {
    let mut table = chains::drawn(random, spread).table();
    let workers = random.below(3);
    table
        .components
        .extend((0..workers).map(|_| worker(random)));
    table
}

/// A component with one clock, which is reset with its round: windows of two to nine
/// ticks, one behind the other or with a gap.
fn worker(random: &mut Random) -> Component {
    let windows = random.within(1..=5);
    let variables = random.count(&(1..=MAX_VARIABLES as u8));
    let (mut locations, mut edges) = (Vec::new(), Vec::new());
    let mut free = 0;
    for source in 0..windows as u8 {
        let ready = free + random.pick(&[0, 0, 1, 4]);
        let end = ready + random.within(1..=8) as u16;
        free = end;
        let last = usize::from(source) + 1 == windows;
        locations.push(Location {
            clock: 0,
            bound: end,
        });
        edges.push(Edge {
            source,
            destination: if last { 0 } else { source + 1 },
            mask: u8::from(last),
            clock_bounds: [bound(ready)].into_iter().collect(),
            action: Action::Internal(updates(random, variables)),
            ..Edge::default()
        });
    }
    Component {
        initial: 0,
        clocks: 1,
        variables,
        locations,
        edges,
    }
}

fn bound(low: u16) -> ClockBound {
    ClockBound {
        clock: 0,
        low,
        high: None,
    }
}

/// Up to four updates of one variable, the first a set, so that the sums stay in range.
fn updates(random: &mut Random, variables: u8) -> List<Update, 4> {
    let variable = random.count(&(0..=variables - 1));
    let count = random.pick(&[0, 1, 2, 3, 4, 4]);
    let update = |place| Update {
        variable,
        operation: match place {
            0 => Operation::Set,
            _ => Operation::Add,
        },
        number: random.within(0..=20) as i16 - 10,
    };
    (0..count).map(update).collect()
}
