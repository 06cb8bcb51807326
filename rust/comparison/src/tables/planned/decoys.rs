//! Edges that are not taken: they are never ready, ready for one tick only,
//! ready later, or ready together with the edge that is taken and numbered
//! higher.

use super::bounds::{Bounds, Scene};
use crate::random::Random;
use crate::tables::edges::{self, form_within};
use crate::tables::Values;
use reference::table::*;

/// What the edges of a component may refer to.
pub(super) struct Own {
    pub(super) locations: u8,
    pub(super) clocks: u8,
    pub(super) variables: u8,
    /// A variable that is always 0.
    pub(super) still: Option<u8>,
    pub(super) channels: u8,
}

/// The most bytes of a decoy before its last bound.
const LONGEST: usize = 40;

/// Why an edge is no candidate or loses.
#[derive(Clone, Copy)]
enum Reason {
    /// Its window starts later.
    Later,
    /// A low above its high.
    Empty,
    /// One tick at most.
    OneTick,
    /// A high that the clock has passed.
    Past,
    /// A data bound that does not hold.
    Data,
}

/// An edge that loses wherever it stands.
pub(super) fn losing(random: &mut Random, own: &Own, scene: &Scene, source: u8) -> Edge {
    let mut edge = anything(random, own, source);
    let receives = matches!(edge.action, Action::Receive(_));
    let reason = random.pick(&[
        Reason::Later,
        Reason::Later,
        Reason::Empty,
        Reason::OneTick,
        Reason::Past,
        Reason::Data,
    ]);
    match reason {
        Reason::Data if !receives && own.variables > 0 => {
            let mut data: Vec<DataBound> = edge.data_bounds.iter().copied().take(3).collect();
            data.push(failing(random, own));
            random.shuffle(&mut data);
            edge.data_bounds = data.into_iter().collect();
        }
        other => {
            let mut bounds = Bounds::default();
            bounds.push(lost(random, own, scene, other));
            for bound in edge.clock_bounds.iter().take(3) {
                bounds.push(*bound);
            }
            edge.clock_bounds = bounds.shuffled(random);
        }
    }
    edge
}

/// A clock bound by which an edge loses.
fn lost(random: &mut Random, own: &Own, scene: &Scene, reason: Reason) -> ClockBound {
    let (clock, at_entry) = scene.clock_at_entry(random);
    let any = random.within(0..=usize::from(at_entry) + 9).min(59_999) as u16;
    match reason {
        Reason::Later => {
            let length = (scene.end - scene.ready).max(1);
            let later = random.within(1..=length.min(9) as usize) as u32;
            let mut bound = scene.low(random, scene.ready + later);
            bound.low = bound.low.min(MAX_TICKS);
            bound
        }
        Reason::Past if at_entry > 0 => ClockBound {
            clock,
            low: 0,
            high: Some(
                random.within(at_entry.saturating_sub(3).into()..=usize::from(at_entry) - 1) as u16,
            ),
        },
        Reason::OneTick => ClockBound {
            clock: random.count(&(0..=own.clocks - 1)),
            low: any,
            high: Some(any),
        },
        _ => ClockBound {
            clock: random.count(&(0..=own.clocks - 1)),
            low: any + 1,
            high: Some(any),
        },
    }
}

/// An edge that is ready together with the one that is taken.
pub(super) fn tie(random: &mut Random, own: &Own, scene: &Scene, source: u8) -> Edge {
    let mut edge = anything(random, own, source);
    let mut bound = scene.low(random, scene.ready);
    if random.once_in(2) {
        let longer = random.within(1..=12) as u16;
        bound.high = Some((bound.low + longer).min(MAX_TICKS));
    }
    let mut bounds = Bounds::default();
    bounds.push(bound);
    edge.clock_bounds = bounds.shuffled(random);
    edge.data_bounds = match edge.action {
        Action::Receive(_) => List::new(),
        _ if own.variables == 0 || random.once_in(2) => List::new(),
        _ => [holding(random, own)].into_iter().collect(),
    };
    edge
}

/// Any edge from this location.
fn anything(random: &mut Random, own: &Own, source: u8) -> Edge {
    let parts = edges::Own {
        locations: own.locations,
        clocks: own.clocks,
        variables: own.variables,
        channels: own.channels,
        values: random.pick(&[Values::Small, Values::Any]),
    };
    let form = form_within(random, &parts, LONGEST);
    let mut edge = edges::edge(random, &parts, form);
    edge.source = source;
    edge
}

/// A data bound that always holds. There must be a variable.
pub(super) fn holding(random: &mut Random, own: &Own) -> DataBound {
    match own.still {
        Some(variable) if random.once_in(2) => DataBound {
            variable,
            low: -(random.below(3) as i16),
            high: random.below(3) as i16,
        },
        _ => DataBound {
            variable: random.count(&(0..=own.variables - 1)),
            low: i16::MIN,
            high: i16::MAX,
        },
    }
}

/// A data bound that never holds. There must be a variable.
fn failing(random: &mut Random, own: &Own) -> DataBound {
    let near = 1 + random.below(3) as i16;
    match own.still {
        Some(variable) if random.once_in(2) => {
            let [low, high] = random.pick(&[[near, i16::MAX], [i16::MIN, -near], [near, near]]);
            DataBound {
                variable,
                low,
                high,
            }
        }
        _ => DataBound {
            variable: random.count(&(0..=own.variables - 1)),
            low: near,
            high: random.pick(&[near - 1, i16::MIN, -near]),
        },
    }
}
