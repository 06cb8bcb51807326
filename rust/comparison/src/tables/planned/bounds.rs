//! Clock bounds that give a window.

use crate::random::Random;
use reference::table::{ClockBound, List, Location, MAX_CLOCKS, MAX_TICKS};

/// When each clock was last reset, counted from the start of the round;
/// nothing where that is not the same in each round.
#[derive(Clone, Copy, Debug)]
pub(super) struct Resets {
    at: [Option<u32>; MAX_CLOCKS],
}

impl Resets {
    /// At the start of a round, if the clocks of this mask start it with 0.
    pub(super) fn of_mask(mask: u8) -> Resets {
        let at = |clock: usize| (mask >> clock & 1 == 1).then_some(0);
        Resets {
            at: std::array::from_fn(at),
        }
    }

    /// After the clocks of a mask were reset at a tick.
    pub(super) fn reset(&mut self, mask: u8, tick: u32) {
        for (clock, at) in self.at.iter_mut().enumerate() {
            if mask >> clock & 1 == 1 {
                *at = Some(tick);
            }
        }
    }

    /// A clock that can be used, and when it was reset.
    fn pick(&self, random: &mut Random) -> (u8, u32) {
        let known = (0u8..).zip(self.at);
        let known: Vec<(u8, u32)> = known.filter_map(|(c, at)| Some((c, at?))).collect();
        random.pick(&known)
    }
}

/// A passage whose bounds are wanted.
#[derive(Clone, Copy, Debug)]
pub(super) struct Scene {
    /// The clocks at entry.
    pub(super) resets: Resets,
    /// When the location is entered.
    pub(super) entry: u32,
    /// The first tick of the window.
    pub(super) ready: u32,
    /// The last tick of the window.
    pub(super) end: u32,
}

impl Scene {
    /// The invariant that ends with the window, or so many ticks later. The
    /// second answer is whether the edge has to end the window itself.
    pub(super) fn location(&self, random: &mut Random, later: u32) -> (Location, bool) {
        let (clock, reset) = self.resets.pick(random);
        let exact = self.end - reset;
        let bound = (exact + later).min(MAX_TICKS.into());
        let location = Location {
            clock,
            bound: bound as u16,
        };
        (location, bound > exact)
    }

    /// The bounds of the edge that is taken: the window starts at its ready
    /// and, if the location does not see to it, ends at its end.
    pub(super) fn taken(&self, random: &mut Random, ends: bool, more: usize) -> Bounds {
        let mut bounds = Bounds::default();
        if self.ready > self.entry || !random.once_in(3) {
            bounds.push(self.low(random, self.ready));
        }
        if ends {
            self.end_with(random, &mut bounds);
        }
        for _ in 0..more {
            bounds.push(self.always(random));
        }
        bounds
    }

    /// A bound that holds from this tick on.
    pub(super) fn low(&self, random: &mut Random, tick: u32) -> ClockBound {
        let (clock, reset) = self.resets.pick(random);
        ClockBound {
            clock,
            low: (tick - reset) as u16,
            high: None,
        }
    }

    /// Lets the window end with its last tick: a high for the bound there is,
    /// or a bound more.
    fn end_with(&self, random: &mut Random, bounds: &mut Bounds) {
        let reset_of = |clock: u8| self.resets.at[usize::from(clock)];
        match bounds.list.first_mut() {
            Some(bound) if random.once_in(2) => {
                let reset = reset_of(bound.clock).unwrap_or(0);
                bound.high = Some((self.end - reset) as u16);
            }
            _ => {
                let mut bound = self.always(random);
                let reset = reset_of(bound.clock).unwrap_or(0);
                bound.high = Some((self.end - reset) as u16);
                bounds.push(bound);
            }
        }
    }

    /// A bound that holds from the entry to the end of the window.
    pub(super) fn always(&self, random: &mut Random) -> ClockBound {
        let (clock, reset) = self.resets.pick(random);
        let least = self.end - reset;
        let most = u32::from(MAX_TICKS).min(least + 20);
        let high = (!random.once_in(2) && least <= most)
            .then(|| random.within(least as usize..=most as usize) as u16);
        let low = random.within(0..=(self.entry - reset) as usize) as u16;
        ClockBound { clock, low, high }
    }

    /// What a clock shows at the entry, and its number.
    pub(super) fn clock_at_entry(&self, random: &mut Random) -> (u8, u16) {
        let (clock, reset) = self.resets.pick(random);
        (clock, (self.entry - reset) as u16)
    }
}

/// At most four clock bounds.
#[derive(Clone, Debug, Default)]
pub(super) struct Bounds {
    list: Vec<ClockBound>,
}

impl Bounds {
    /// Another bound if there is room for one.
    pub(super) fn push(&mut self, bound: ClockBound) {
        if self.list.len() < 4 {
            self.list.push(bound);
        }
    }

    /// The bounds in any order.
    pub(super) fn shuffled(mut self, random: &mut Random) -> List<ClockBound, 4> {
        random.shuffle(&mut self.list);
        self.list.into_iter().collect()
    }
}
