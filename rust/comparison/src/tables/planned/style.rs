//! How the windows of a lane are brought about.

use crate::random::Random;
use reference::table::{MAX_CLOCKS, MAX_VARIABLES};

/// How a component is written. None of this changes its windows.
#[derive(Clone, Copy, Debug, PartialEq, Eq)]
pub struct Style {
    /// The clocks of the component. With several, each step resets some.
    pub clocks: u8,
    /// Variables beside those that the lane needs. Their values change; the
    /// last of two or more stays 0.
    pub spare: u8,
    /// Whether some locations are bounded later than the window ends, which an
    /// edge's high bound then does.
    pub loose: bool,
    /// Clock bounds and data bounds that always hold, at most so many of each.
    pub more_bounds: usize,
    /// Edges that are not taken, at most so many from each location.
    pub decoys: usize,
    /// Whether locations are numbered in any order.
    pub shuffled: bool,
}

impl Style {
    /// One clock, reset with the round; one bound for each window.
    pub const PLAIN: Style = Style {
        clocks: 1,
        spare: 0,
        loose: false,
        more_bounds: 0,
        decoys: 0,
        shuffled: false,
    };

    /// Any style without edges that are not taken.
    pub fn sparse(random: &mut Random) -> Style {
        Style {
            clocks: random.count(&(1..=MAX_CLOCKS as u8)),
            spare: random.count(&(0..=2)),
            loose: random.once_in(2),
            more_bounds: random.below(3),
            decoys: 0,
            shuffled: random.once_in(2),
        }
    }

    /// Any style with many edges from each location.
    pub fn crowded(random: &mut Random) -> Style {
        Style {
            decoys: random.within(1..=12),
            ..Style::sparse(random)
        }
    }

    /// The variables of a component whose lane needs so many itself.
    pub(super) fn variables(&self, needed: u8) -> u8 {
        (needed + self.spare).min(MAX_VARIABLES as u8)
    }
}
