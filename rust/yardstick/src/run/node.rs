//! One node's registers, and what statements do to them.

use super::code::Statement;
use crate::table::*;
use crate::{NO_WORK, OBSERVATION};

/// The ready delay of a node that has kept no edge.
pub(super) const NOTHING_KEPT: i32 = i32::MAX;
/// The end of a trial that has failed.
const FAILED: i32 = i32::MIN;
/// The location of a node that has taken no message.
pub(super) const NO_LOCATION: u8 = 255;
/// Where in an observation the finish tick stands.
const FINISH_TICK: usize = 32;

/// What a node remembers from one statement to the next.
#[derive(Clone, Copy, Default)]
pub(super) struct Node {
    /// The place of its statement.
    pub(super) place: usize,
    /// The tick of the ready of the edge taken last.
    pub(super) t: u32,
    /// Its ready delay.
    pub(super) n: u32,
    /// The length of its window.
    pub(super) d: u32,
    /// The clocks at the entry of the present location.
    pub(super) clocks: Clocks,
    pub(super) variables: Variables,
    /// The ready delay and the end of the trial under way.
    trial: [i32; 2],
    /// The ready delay and the end of the edge kept.
    kept: [i32; 2],
    kept_edge: u8,
    pub(super) location: u8,
    /// The edge taken last.
    pub(super) edge: u8,
    /// The location paired with the message taken.
    pub(super) paired: u8,
    /// The place of its next passage in the schedule.
    pub(super) passage: u16,
    /// By how many ticks the rows are moved for it.
    pub(super) moved: u32,
    /// The ready of that passage.
    pub(super) ready: u32,
    /// The tick of its own clock at which its last work finished.
    pub(super) finished: u32,
}

impl Node {
    /// A node at its start: "t, n, d all 0".
    pub(super) fn new(place: usize, location: u8) -> Node {
        Node {
            place,
            location,
            kept: [NOTHING_KEPT, 0],
            paired: NO_LOCATION,
            finished: NO_WORK,
            ..Node::default()
        }
    }

    /// The last tick of its window.
    #[inline]
    pub(super) fn window_end(&self) -> u32 {
        self.t.saturating_add(self.d)
    }

    /// Whether there is an edge to be taken.
    #[inline]
    pub(super) fn has_kept(&self) -> bool {
        self.kept[0] != NOTHING_KEPT
    }

    /// "Take moves t by the old d, then by the new ready delay n, sets d
    /// (window length)": the edge taken.
    #[inline]
    pub(super) fn take(&mut self) -> u8 {
        let [ready, end] = self.kept;
        self.n = ready as u32;
        self.t = self.window_end().saturating_add(self.n);
        self.d = (end - ready) as u32;
        self.edge = self.kept_edge;
        self.edge
    }

    /// Goes to a location's block with nothing kept.
    #[inline]
    pub(super) fn choose(&mut self, place: usize) {
        self.place = place;
        self.kept = [NOTHING_KEPT, 0];
    }

    /// "Trial starts with ready delay 0".
    #[inline]
    pub(super) fn start_trial(&mut self) {
        self.trial = [0, FAR];
    }

    /// "low raises it to k − clock".
    #[inline]
    pub(super) fn raise(&mut self, Statement { a, k, .. }: Statement) {
        let left = i32::from(k) - self.clocks[usize::from(a) % CLOCKS];
        self.trial[0] = self.trial[0].max(left);
    }

    /// "high lowers the trial's end to k − clock".
    #[inline]
    pub(super) fn lower(&mut self, Statement { a, k, .. }: Statement) {
        let left = i32::from(k) - self.clocks[usize::from(a) % CLOCKS];
        self.trial[1] = self.trial[1].min(left);
    }

    /// "a bound not met fails the trial".
    #[inline]
    pub(super) fn demand(&mut self, holds: bool) {
        if !holds {
            self.trial[1] = FAILED;
        }
    }

    /// A budget "fails the trial of a shorter window".
    #[inline]
    pub(super) fn demand_length(&mut self, budget: u16) {
        let [ready, end] = self.trial;
        self.demand(end.saturating_sub(ready) >= i32::from(budget));
    }

    /// A variable.
    #[inline]
    pub(super) fn variable(&mut self, number: u8) -> &mut i16 {
        &mut self.variables[usize::from(number) % VARIABLES]
    }

    /// "Age adds n + d."
    #[inline]
    pub(super) fn age(&mut self, clock: u8) {
        self.clocks[usize::from(clock) % CLOCKS] += (self.n + self.d) as i32;
    }

    /// A clock becomes 0.
    #[inline]
    pub(super) fn zero(&mut self, clock: u8) {
        self.clocks[usize::from(clock) % CLOCKS] = 0;
    }

    /// "Keep applies the candidate rule".
    #[inline]
    pub(super) fn keep(&mut self, edge: u8) {
        let [ready, end] = self.trial;
        if ready < end && ready < self.kept[0] {
            self.kept = self.trial;
            self.kept_edge = edge;
        }
    }

    /// "Enter goes to location k, after a message to the paired one."
    #[inline]
    pub(super) fn enter(&mut self, location: u8) {
        let paired = std::mem::replace(&mut self.paired, NO_LOCATION);
        self.location = if paired == NO_LOCATION {
            location
        } else {
            paired
        };
    }

    /// "32 bytes: component, edge, location, 0, tick (4 bytes), four clocks
    /// grown by n (4 each), four variables (2 each); absent ones 0." "after the old 32
    /// comes the tick at which the node's previous work finished".
    #[inline]
    pub(super) fn observe(&self, number: u8, clocks: u8, tick: u32, out: &mut [u8; OBSERVATION]) {
        let mut bytes = [0; OBSERVATION];
        bytes[..3].copy_from_slice(&[number, self.edge, self.location]);
        bytes[4..8].copy_from_slice(&tick.to_be_bytes());
        let places = bytes[8..24].as_chunks_mut::<4>().0;
        for (place, clock) in places.iter_mut().zip(&self.clocks).take(clocks.into()) {
            *place = (*clock as u32 + self.n).to_be_bytes();
        }
        let places = bytes[24..FINISH_TICK].as_chunks_mut::<2>().0;
        for (place, variable) in places.iter_mut().zip(&self.variables) {
            *place = variable.to_be_bytes();
        }
        bytes[FINISH_TICK..].copy_from_slice(&self.finished.to_be_bytes());
        *out = bytes;
    }
}
