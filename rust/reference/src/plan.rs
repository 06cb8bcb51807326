//! The slot planner: wish 4 of document 02, written from its sentences. Each
//! component is a list of windows, from which locations and edges follow.

use crate::table::*;
use std::ops::RangeInclusive;

/// "n probes (1 to 7)".
const PROBES: RangeInclusive<u32> = 1..=7;
/// "slot s and guard g (1 to 1,000 ticks each)".
const TICKS: RangeInclusive<u32> = 1..=1000;
/// "period p (at most 30,000)".
const MAX_PERIOD: u32 = 30_000;

/// "For a cellar with one hub and n probes [...] we give slot s and guard g
/// [...] and period p".
#[derive(Clone, Copy, Debug, PartialEq, Eq)]
pub struct Slots {
    /// n.
    pub probes: u32,
    /// s.
    pub slot: u32,
    /// g.
    pub guard: u32,
    /// p.
    pub period: u32,
}

/// A stay: from when its edge can be taken, when it is left, by what.
struct Window {
    low: u32,
    end: u32,
    action: Action,
}

/// "A crate [...] writes a version 1 table with n channels and H = 2 × p."
pub fn plan(slots: &Slots) -> Result<Table, Refusal> {
    if !can_be_planned(slots) {
        return Err(Refusal::whole(18));
    }
    let components = (0..=slots.probes).map(|number| component(slots, windows(slots, number)));
    Ok(Table {
        version: 1,
        bands: Vec::new(),
        channels: slots.probes as u8,
        horizon: 2 * slots.period as u16,
        components: components.collect(),
    })
}

/// "Refusal 18 is given for a number outside its range or n × (s + 2 × g) ≥ p
/// [...] and for nothing else."
fn can_be_planned(slots: &Slots) -> bool {
    PROBES.contains(&slots.probes)
        && TICKS.contains(&slots.slot)
        && TICKS.contains(&slots.guard)
        && slots.period <= MAX_PERIOD
        && slots.probes * (slots.slot + 2 * slots.guard) < slots.period
}

/// The slots of its own: a probe's one, or all of them, which are the hub's:
/// "the hub, component n, listens".
fn windows(slots: &Slots, number: u32) -> Vec<Window> {
    if number < slots.probes {
        vec![sent(slots, number)]
    } else {
        (0..slots.probes).map(|probe| heard(slots, probe)).collect()
    }
}

/// "Probe i, from 0, sends from i × (s + 2 × g) + g to s ticks later on channel
/// i".
fn sent(slots: &Slots, probe: u32) -> Window {
    let low = probe * (slots.slot + 2 * slots.guard) + slots.guard;
    Window {
        low,
        end: low + slots.slot,
        action: Action::Send(probe as u8),
    }
}

/// "the hub [...] listens to it g ticks longer on both sides, and a message or
/// a timeout leads to the same next location".
fn heard(slots: &Slots, probe: u32) -> Window {
    let Window { low, end, .. } = sent(slots, probe);
    let pair = Pair {
        channel: probe as u8,
        location: probe as u8 + 1,
    };
    Window {
        low: low - slots.guard,
        end: end + slots.guard,
        action: Action::Receive([pair].into_iter().collect()),
    }
}

/// "Each component has one clock, reset only there, no variable, one location
/// with one edge for each slot of its own in order, then one for the rest":
/// "all rest by an internal edge with low p − 1 and end p, and begin anew".
fn component(slots: &Slots, mut windows: Vec<Window>) -> Component {
    let rest = windows.len() as u8;
    windows.push(Window {
        low: slots.period - 1,
        end: slots.period,
        action: Action::default(),
    });
    let edge = |(source, window): (u8, &Window)| Edge {
        source,
        destination: if source == rest { 0 } else { source + 1 },
        mask: u8::from(source == rest),
        ..passing(window)
    };
    Component {
        initial: 0,
        clocks: 1,
        variables: 0,
        locations: windows.iter().map(bounded).collect(),
        edges: (0..).zip(&windows).map(edge).collect(),
    }
}

/// "each location's bound is its window's end".
fn bounded(window: &Window) -> Location {
    let bound = window.end as u16;
    Location { clock: 0, bound }
}

/// "each edge has one clock bound with no high".
fn passing(window: &Window) -> Edge {
    let bound = ClockBound {
        clock: 0,
        low: window.low as u16,
        high: None,
    };
    Edge {
        clock_bounds: [bound].into_iter().collect(),
        action: window.action,
        ..Edge::default()
    }
}
