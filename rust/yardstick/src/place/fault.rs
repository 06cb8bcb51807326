//! What is told of a part at which the walk stops.

use super::{left_over, part, somewhere, too_short, Limits, Place, Stop};
use crate::table::{MAX_TICKS, NO_HIGH};

/// A number of a part: offset, width, least and limit.
type Number = [u32; 4];

/// The place at which the walk of a component stopped: the part is too short, or the
/// first of its numbers that is out of range, or a channel listed twice.
#[cold]
pub(super) fn place(
    own: &[u8],
    stop: &Stop,
    limits: &Limits,
    component: usize,
    first: usize,
) -> Place {
    let &Stop {
        part,
        edge,
        index,
        at,
    } = stop;
    let start = first + at;
    let there = own.len() - at;
    let size = [0, 2, 7, 3, 7, 5, 5, 4, 1, 2, 0, 0, 2][usize::from(part)];
    let found = match part {
        part::COMPONENT_END => left_over(part, component, start, there),
        _ if there < size => too_short(part, component, start, there, size as u32),
        _ => number(
            &own[at..at + size],
            limits,
            somewhere(part, component, start),
        ),
    };
    Place {
        edge,
        index,
        ..found
    }
}

/// The first number of a part that is out of range, or its channel.
fn number(part: &[u8], limits: &Limits, place: Place) -> Place {
    let (numbers, count) = numbers(place.part, part, limits);
    let value = |[offset, width, ..]: Number| {
        let own = &part[offset as usize..(offset + width) as usize];
        own.iter().fold(0, |sum, byte| sum << 8 | u32::from(*byte))
    };
    for number in &numbers[..count] {
        let [offset, width, least, limit] = *number;
        let value = value(*number);
        let unbounded = (place.part == part::CLOCK_BOUND) & (offset == 3);
        if (least..limit).contains(&value) | (unbounded & (value == NO_HIGH.into())) {
            continue;
        }
        return Place {
            number: 5,
            unbounded,
            offset,
            width,
            value,
            least,
            limit,
            ..place
        };
    }
    Place {
        number: 6,
        width: 1,
        value: part[0].into(),
        limit: limits.channels.into(),
        ..place
    }
}

/// The numbers of a part, and how many there are.
fn numbers(part: u8, bytes: &[u8], limits: &Limits) -> ([Number; 7], usize) {
    let Limits {
        locations,
        clocks,
        variables,
        channels,
        ..
    } = *limits;
    let [locations, clocks, variables, channels] =
        [locations, clocks, variables, channels].map(u32::from);
    let (data_bounds, items) = match bytes[0] {
        0 => ([5, 1, 0, 5], [6, 1, 0, 5]),
        1 => ([5, 1, 0, 5], [6, 1, 1, 2]),
        _ => ([5, 1, 0, 1], [6, 1, 1, 9]),
    };
    let ticks = u32::from(MAX_TICKS) + 1;
    let none = [0; 4];
    match part {
        part::HEAD => {
            let [a, b, c] = [[2, 1, 1, 17], [3, 1, 0, locations], [4, 1, 1, 5]];
            ([a, b, c, [5, 1, 0, 5], [6, 1, 1, 33], none, none], 5)
        }
        part::EDGE => {
            let [a, b] = [[0, 1, 0, 3], [1, 1, 0, locations]];
            let [c, d, e] = [[2, 1, 0, locations], [3, 1, 0, 1 << clocks], [4, 1, 0, 5]];
            ([a, b, c, d, e, data_bounds, items], 7)
        }
        part::BUDGET => few([[0, 2, 0, ticks], none, none], 1),
        part::LOCATION => few([[0, 1, 0, clocks], [1, 2, 0, ticks], none], 2),
        part::CLOCK_BOUND => few([[0, 1, 0, clocks], [1, 2, 0, ticks], [3, 2, 0, ticks]], 3),
        part::DATA_BOUND => few([[0, 1, 0, variables], none, none], 1),
        part::UPDATE => few([[0, 1, 0, variables], [1, 1, 0, 2], none], 2),
        part::CHANNEL => few([[0, 1, 0, channels], none, none], 1),
        _ => few([[0, 1, 0, channels], [1, 1, 0, locations], none], 2),
    }
}

/// The numbers of a part that has three at most.
fn few([a, b, c]: [Number; 3], count: usize) -> ([Number; 7], usize) {
    ([a, b, c, [0; 4], [0; 4], [0; 4], [0; 4]], count)
}
