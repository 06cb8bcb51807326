//! Where checks 7 to 9 stop: what is told of the opening at which the sweep ended.

use crate::opening::{first_failing, first_out_of_range};
use crate::schedule::Stop;
use crate::table::*;
use crate::{Refusal, NONE};

/// An opening that one of checks 7 to 9 refuses.
#[derive(Clone, Copy, Debug, PartialEq, Eq)]
pub struct RefusedOpening {
    /// The number of the check.
    pub number: u8,
    /// The component whose passage would open.
    pub component: u8,
    /// The location that it enters.
    pub location: u8,
    /// With 8, how many edges leave the location, else 0.
    pub leaving: u8,
    /// With 8, how many of them have a data bound that fails, else 0.
    pub blocked: u8,
    /// With 8, how many others leave it, none of which has a window long enough, else 0.
    pub windowless: u8,
    /// With 9, the edge taken, else [`NONE`].
    pub edge: u8,
    /// With 9, its first update that leaves the range, else [`NONE`].
    pub update: u8,
    /// How many passages were opened before.
    pub passage: u32,
    /// The tick of the entry.
    pub tick: u32,
    /// The clocks there, 0 for absent ones.
    pub clocks: [u32; CLOCKS],
    /// The variables there, 0 for absent ones.
    pub variables: Variables,
}

/// The opening at which a sweep ended with this refusal, after so many passages.
#[cold]
pub(crate) fn opening(
    table: &Table,
    bytes: &[u8],
    stop: &Stop,
    refusal: Refusal,
    passages: usize,
) -> RefusedOpening {
    let component = table.component(refusal.component.into());
    let mut clocks = stop.clocks.map(|clock| clock as u32);
    clocks[usize::from(component.clocks).min(CLOCKS)..].fill(0);
    let mut opening = RefusedOpening {
        number: refusal.number,
        component: refusal.component,
        location: stop.location,
        leaving: 0,
        blocked: 0,
        windowless: 0,
        edge: NONE,
        update: NONE,
        passage: passages as u32,
        tick: stop.tick,
        clocks,
        variables: stop.variables,
    };
    match refusal.number {
        8 => {
            let from = component.location(stop.location).from;
            let fails = |number: &usize| {
                let edge = &component.edges[number % EDGES];
                first_failing(edge, bytes, &stop.variables).is_some()
            };
            opening.leaving = from.count_ones() as u8;
            opening.blocked = Bits(from).filter(fails).count() as u8;
            opening.windowless = opening.leaving - opening.blocked;
        }
        9 => {
            opening.edge = stop.edge;
            let edge = component.edge(stop.edge);
            opening.update = first_out_of_range(edge, bytes, &stop.variables);
        }
        _ => {}
    }
    opening
}
