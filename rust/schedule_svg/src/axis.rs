//! The axis of ticks: each tick is as wide as every other.

use crate::scene::Window;

/// Where the ticks begin, and how much room there is for them.
pub const LEFT: f64 = 50.0;
pub const ROOM: f64 = 930.0;
/// The most numbers that stand at an axis.
const NUMBERS: u32 = 24;

/// The ticks from one to another, both shown.
pub struct Axis {
    pub from: u32,
    pub to: u32,
}

impl Axis {
    pub fn new(from: u32, to: u32) -> Axis {
        Axis { from, to }
    }

    /// How wide a tick is.
    pub fn unit(&self) -> f64 {
        ROOM / f64::from(self.to - self.from + 1)
    }

    /// Where a tick of the axis begins; where it ends the next one begins.
    pub fn start(&self, tick: u32) -> f64 {
        LEFT + f64::from(tick - self.from) * self.unit()
    }

    /// The part of some ticks, first and last, that is shown: where it begins
    /// and how wide it is.
    pub fn part(&self, first: u32, last: u32) -> Option<(f64, f64)> {
        let (first, last) = (first.max(self.from), last.min(self.to));
        (first <= last).then(|| (self.start(first), self.start(last + 1) - self.start(first)))
    }

    /// The same for a window. A tick that it has in common with the window
    /// before or behind it in its row is halved between the two.
    pub fn window(&self, window: &Window) -> Option<(f64, f64)> {
        let (x, width) = self.part(window.ready, window.end)?;
        let half = |halved: bool, tick: u32| {
            let shown = halved && (self.from..=self.to).contains(&tick);
            f64::from(u8::from(shown)) * self.unit() / 2.0
        };
        let (before, behind) = window.halved;
        let (before, behind) = (half(before, window.ready), half(behind, window.end));
        Some((x + before, width - before - behind))
    }

    /// How many ticks lie between two numbers: 1, 2 or 5, or ten times as many
    /// and so on.
    pub fn step(&self) -> u32 {
        let ticks = self.to - self.from + 1;
        let enough = |step: &u32| ticks / step <= NUMBERS;
        let steps = (0..6).flat_map(|tens| [1, 2, 5].map(|step| step * 10_u32.pow(tens)));
        steps.clone().find(enough).unwrap_or(1_000_000)
    }

    /// The ticks that get a number.
    pub fn numbered(&self) -> impl Iterator<Item = u32> {
        let step = self.step();
        let first = self.from.div_ceil(step) * step;
        (first..=self.to).step_by(step as usize)
    }
}

#[cfg(test)]
mod tests {
    use super::*;

    #[test]
    fn few_numbers_at_round_ticks() {
        for (from, to, step) in [
            (0, 20, 1),
            (0, 24, 2),
            (3, 60, 5),
            (0, 300, 20),
            (0, 60_000, 5000),
        ] {
            let axis = Axis::new(from, to);
            assert_eq!(axis.step(), step, "{from} {to}");
            let numbered: Vec<u32> = axis.numbered().collect();
            assert!(numbered
                .iter()
                .all(|tick| tick % step == 0 && (from..=to).contains(tick)));
            assert!((8..=25).contains(&numbered.len()), "{}", numbered.len());
        }
    }

    #[test]
    fn parts_are_cut_at_the_axis() {
        let axis = Axis::new(10, 19);
        let (tick, all) = (ROOM / 10.0, (LEFT, ROOM));
        assert_eq!(axis.part(0, 100), Some(all));
        assert_eq!(axis.part(10, 10), Some((LEFT, tick)));
        assert_eq!(
            axis.part(19, 40),
            Some((axis.start(19), axis.start(20) - axis.start(19)))
        );
        assert_eq!((axis.part(0, 9), axis.part(20, 30)), (None, None));
    }
}
