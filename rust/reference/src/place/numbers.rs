//! The numbers of a table's parts in the order of their bytes, and what is allowed
//! for each.

use crate::table::{MAX_TICKS, NO_HIGH};
use std::ops::Range;

/// A number of a part: where it stands there, and what is allowed.
#[derive(Clone, Debug)]
pub(super) struct Number {
    pub(super) offset: usize,
    pub(super) width: usize,
    pub(super) allowed: Range<u32>,
    pub(super) unbounded: bool,
}

impl Number {
    /// A number of one byte.
    fn one(offset: usize, allowed: Range<u32>) -> Number {
        Number {
            offset,
            width: 1,
            allowed,
            unbounded: false,
        }
    }

    /// A number of two bytes.
    fn two(offset: usize, allowed: Range<u32>) -> Number {
        Number {
            width: 2,
            ..Number::one(offset, allowed)
        }
    }

    /// A number of ticks, "0 to 60,000".
    fn ticks(offset: usize) -> Number {
        Number::two(offset, 0..u32::from(MAX_TICKS) + 1)
    }

    /// How many bytes there are for a part, which is no number in it.
    pub(super) fn of_bytes(allowed: Range<u32>) -> Number {
        Number {
            width: 0,
            ..Number::one(0, allowed)
        }
    }

    /// What stands there in the bytes of the part.
    pub(super) fn value(&self, part: &[u8]) -> u32 {
        let own = &part[self.offset..self.offset + self.width];
        own.iter().fold(0, |sum, byte| sum * 256 + u32::from(*byte))
    }

    /// Whether this may stand there.
    pub(super) fn allows(&self, value: u32) -> bool {
        self.allowed.contains(&value) || self.unbounded && value == u32::from(NO_HIGH)
    }
}

/// What a component's parts may refer to: so many locations, clocks and variables
/// of its own, and so many channels of the table.
#[derive(Clone, Copy)]
pub(super) struct Counts {
    pub(super) locations: u32,
    pub(super) clocks: u32,
    pub(super) variables: u32,
    pub(super) channels: u32,
}

/// "its length, these two bytes included (2 bytes)": at most as many bytes as there
/// are from the component's start to the table's end.
pub(super) fn length(there: usize) -> Number {
    Number::two(0, 0..there as u32 + 1)
}

/// "locations 1 to 16; initial location; clocks 1 to 4; variables 0 to 4; edges 1
/// to 32", behind the length.
pub(super) fn head(head: &[u8]) -> [Number; 5] {
    [
        Number::one(2, 1..17),
        Number::one(3, 0..head[2].into()),
        Number::one(4, 1..5),
        Number::one(5, 0..5),
        Number::one(6, 1..33),
    ]
}

/// "Location, 3 bytes: clock, and bound q (0 to 60,000)."
pub(super) fn location(counts: &Counts) -> [Number; 2] {
    [Number::one(0, 0..counts.clocks), Number::ticks(1)]
}

/// "7 bytes: kind, source, destination, reset mask (bit i for clock i), counts of
/// clock bounds (0 to 4), data bounds (0 to 4; 0 for receive) and items." "Internal:
/// 0 to 4 updates", "Send: exactly one item", "Receive: 1 to 8 pairs". A kind above
/// 2 is at fault before its counts are tried.
pub(super) fn edge(counts: &Counts, edge: &[u8]) -> [Number; 7] {
    let (data_bounds, items) = match edge[0] {
        0 => (0..5, 0..5),
        1 => (0..5, 1..2),
        _ => (0..1, 1..9),
    };
    [
        Number::one(0, 0..3),
        Number::one(1, 0..counts.locations),
        Number::one(2, 0..counts.locations),
        Number::one(3, 0..1 << counts.clocks),
        Number::one(4, 0..5),
        Number::one(5, data_bounds),
        Number::one(6, items),
    ]
}

/// "a 2-byte budget (0 to 60,000)" (document 02, wish 8).
pub(super) fn budget() -> Number {
    Number::ticks(0)
}

/// "Clock bound, 5 bytes: clock, low (0 to 60,000), high (0 to 60,000, or 65,535
/// for none)."
pub(super) fn clock_bound(counts: &Counts) -> [Number; 3] {
    let high = Number {
        unbounded: true,
        ..Number::ticks(3)
    };
    [Number::one(0, 0..counts.clocks), Number::ticks(1), high]
}

/// "Data bound, 5 bytes: variable, low, high, two's complement": any low and any
/// high is in range.
pub(super) fn data_bound(counts: &Counts) -> [Number; 1] {
    [Number::one(0, 0..counts.variables)]
}

/// "updates of 4 bytes: variable, 0 set or 1 add, signed number": any signed number
/// is in range.
pub(super) fn update(counts: &Counts) -> [Number; 2] {
    [Number::one(0, 0..counts.variables), Number::one(1, 0..2)]
}

/// The channel of a send, or that of a pair.
pub(super) fn channel(counts: &Counts) -> Number {
    Number::one(0, 0..counts.channels)
}

/// "pairs of channel and location".
pub(super) fn pair(counts: &Counts) -> [Number; 2] {
    [channel(counts), Number::one(1, 0..counts.locations)]
}
