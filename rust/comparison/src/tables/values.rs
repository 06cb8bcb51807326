//! The numbers of a table: ticks, data and references to other parts.

use crate::random::Random;
use reference::table::{Operation, MAX_TICKS};

/// Which numbers a table has.
#[derive(Clone, Copy, Debug, PartialEq, Eq)]
pub enum Values {
    /// Ticks up to 30 and data from −5 to 5, so that much happens early.
    Small,
    /// Anything in range.
    Any,
    /// Only the least and the greatest of each range.
    Ends,
}

impl Values {
    /// A tick count in a bound.
    pub(super) fn ticks(self, random: &mut Random) -> u16 {
        self.number(random, [0, 30], [0, i32::from(MAX_TICKS)]) as u16
    }

    /// A high bound; in one of three cases there is none.
    pub(super) fn high(self, random: &mut Random) -> Option<u16> {
        let none = random.once_in(3);
        let high = self.ticks(random);
        (!none).then_some(high)
    }

    /// A horizon.
    pub(super) fn horizon(self, random: &mut Random) -> u16 {
        self.number(random, [1, 60], [1, i32::from(MAX_TICKS)]) as u16
    }

    /// A value of a variable, or a number added to one.
    pub(super) fn data(self, random: &mut Random) -> i16 {
        let whole = [i32::from(i16::MIN), i32::from(i16::MAX)];
        self.number(random, [-5, 5], whole) as i16
    }

    /// The number of one of so many parts; 0 if there is none.
    pub(super) fn reference(self, random: &mut Random, count: u8) -> u8 {
        let range = [0, i32::from(count.max(1)) - 1];
        self.number(random, range, range) as u8
    }

    /// A reset mask for so many clocks.
    pub(super) fn mask(self, random: &mut Random, clocks: u8) -> u8 {
        let range = [0, (1 << clocks) - 1];
        self.number(random, range, range) as u8
    }

    /// What an update does.
    pub(super) fn operation(self, random: &mut Random) -> Operation {
        random.pick(&[Operation::Set, Operation::Add])
    }

    fn number(self, random: &mut Random, small: [i32; 2], whole: [i32; 2]) -> i32 {
        match self {
            Values::Small => between(random, small),
            Values::Any => between(random, whole),
            Values::Ends => random.pick(&whole),
        }
    }
}

/// A number from the least to the greatest, both included.
fn between(random: &mut Random, [least, greatest]: [i32; 2]) -> i32 {
    least + random.below((greatest - least) as usize + 1) as i32
}
