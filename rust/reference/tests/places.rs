//! Where checks 4 to 6 stop: hand-made cases, and what holds of any place. The
//! vectors have more cases.

mod common;

use common::*;
use reference::calls::{check, refusal_place};
use reference::place::{Part, Place};
use reference::table::*;

/// A place of the first component's part without an index.
fn place(number: u8, part: Part, start: u32) -> Place {
    Place {
        number,
        component: 0,
        part,
        edge: None,
        index: None,
        start,
        offset: 0,
        width: 0,
        value: 0,
        least: 0,
        limit: 1,
        unbounded: false,
    }
}

/// The bytes of the first component's parts in a table made by hand: 3 locations, 2
/// clocks, 2 variables and 2 channels; an internal edge and a receive edge with all
/// kinds of parts.
const PARTS: &[u8] = &[
    0, 62, 3, 2, 2, 2, 2, // at 7: the first 7 bytes
    0, 0, 9, 1, 0, 8, 0, 0, 7, // at 14, 17, 20: locations
    0, 2, 1, 3, 2, 1, 2, // at 23: edge 0, internal
    0, 0, 1, 255, 255, 1, 0, 2, 0, 3, // at 30, 35: clock bounds
    1, 255, 255, 0, 1, // at 40: a data bound
    0, 0, 0, 5, 1, 1, 255, 255, // at 45, 49: updates
    2, 0, 1, 0, 1, 0, 2, // at 53: edge 1, receive
    1, 0, 0, 234, 96, // at 60: a clock bound
    1, 0, 0, 2, // at 65, 67: pairs; the end is at 69
];

/// The table of these parts and a send edge's component of 18 bytes, from 69 on:
/// its edge stands at 79, its channel at 86.
fn table() -> Vec<u8> {
    let mut bytes = vec![1, 0, 87, 2, 2, 0, 100];
    bytes.extend(PARTS);
    bytes.extend([0, 18, 1, 0, 1, 0, 1, 0, 0, 5, 1, 0, 0, 0, 0, 0, 1, 1]);
    bytes
}

/// The table with these bytes changed.
fn with(changes: &[(usize, u8)]) -> Vec<u8> {
    let mut bytes = table();
    for &(at, byte) in changes {
        bytes[at] = byte;
    }
    bytes
}

/// A number of one byte at fault: the part, its edge and index, its start, the
/// number's offset, and what is allowed.
type Number = (Part, Option<u8>, Option<u8>, u32, u32, u32, u32);

/// Every number of one byte that the first component has.
const ONE_BYTE: [Number; 28] = [
    (Part::Head, None, None, 7, 2, 1, 17),
    (Part::Head, None, None, 7, 3, 0, 3),
    (Part::Head, None, None, 7, 4, 1, 5),
    (Part::Head, None, None, 7, 5, 0, 5),
    (Part::Head, None, None, 7, 6, 1, 33),
    (Part::Location, None, Some(0), 14, 0, 0, 2),
    (Part::Location, None, Some(1), 17, 0, 0, 2),
    (Part::Location, None, Some(2), 20, 0, 0, 2),
    (Part::Edge, Some(0), None, 23, 0, 0, 3),
    (Part::Edge, Some(0), None, 23, 1, 0, 3),
    (Part::Edge, Some(0), None, 23, 2, 0, 3),
    (Part::Edge, Some(0), None, 23, 3, 0, 4),
    (Part::Edge, Some(0), None, 23, 4, 0, 5),
    (Part::Edge, Some(0), None, 23, 5, 0, 5),
    (Part::Edge, Some(0), None, 23, 6, 0, 5),
    (Part::ClockBound, Some(0), Some(0), 30, 0, 0, 2),
    (Part::ClockBound, Some(0), Some(1), 35, 0, 0, 2),
    (Part::DataBound, Some(0), Some(0), 40, 0, 0, 2),
    (Part::Update, Some(0), Some(0), 45, 0, 0, 2),
    (Part::Update, Some(0), Some(0), 45, 1, 0, 2),
    (Part::Update, Some(0), Some(1), 49, 0, 0, 2),
    (Part::Update, Some(0), Some(1), 49, 1, 0, 2),
    (Part::Edge, Some(1), None, 53, 5, 0, 1),
    (Part::Edge, Some(1), None, 53, 6, 1, 9),
    (Part::ClockBound, Some(1), Some(0), 60, 0, 0, 2),
    (Part::Pair, Some(1), Some(0), 65, 0, 0, 2),
    (Part::Pair, Some(1), Some(0), 65, 1, 0, 3),
    (Part::Pair, Some(1), Some(1), 67, 0, 0, 2),
];

#[test]
fn each_number_of_one_byte_past_its_range() {
    assert_eq!(
        (check(&table()), refusal_place(&table())),
        (Err(refused(8, 0)), None)
    );
    for (part, edge, index, start, offset, least, limit) in ONE_BYTE {
        let below = least.checked_sub(1);
        for value in below.into_iter().chain([limit, 255]) {
            let expected = Place {
                edge,
                index,
                offset,
                width: 1,
                value,
                least,
                limit,
                ..place(5, part, start)
            };
            let bytes = with(&[((start + offset) as usize, value as u8)]);
            assert_eq!(refusal_place(&bytes), Some(expected));
        }
        for value in [least, limit - 1] {
            let bytes = with(&[((start + offset) as usize, value as u8)]);
            let found = refusal_place(&bytes);
            let itself =
                |place: Place| (place.start, place.offset, place.number) == (start, offset, 5);
            assert!(!found.is_some_and(itself), "{found:?}");
        }
    }
}

#[test]
fn each_number_of_two_bytes_past_its_range() {
    let numbers = [
        (Part::Location, None, Some(0), 14, 1, false),
        (Part::Location, None, Some(2), 20, 1, false),
        (Part::ClockBound, Some(0), Some(0), 30, 1, false),
        (Part::ClockBound, Some(0), Some(0), 30, 3, true),
        (Part::ClockBound, Some(0), Some(1), 35, 1, false),
        (Part::ClockBound, Some(0), Some(1), 35, 3, true),
        (Part::ClockBound, Some(1), Some(0), 60, 3, true),
    ];
    for (part, edge, index, start, offset, unbounded) in numbers {
        let at = (start + offset) as usize;
        for value in [60_001, 65_534, 65_535] {
            let [high, low] = (value as u16).to_be_bytes();
            let expected = Place {
                edge,
                index,
                offset,
                width: 2,
                value,
                limit: 60_001,
                unbounded,
                ..place(5, part, start)
            };
            let allowed = unbounded && value == 65_535;
            let found = refusal_place(&with(&[(at, high), (at + 1, low)]));
            assert_eq!(found, (!allowed).then_some(expected));
        }
        assert_eq!(refusal_place(&with(&[(at, 234), (at + 1, 96)])), None);
    }
}

/// The second component, whose edge sends: exactly one item, and 2 channels.
#[test]
fn the_numbers_of_a_send() {
    let second = |part, offset, value, least, limit, start| Place {
        component: 1,
        edge: Some(0),
        offset,
        width: 1,
        value,
        least,
        limit,
        ..place(5, part, start)
    };
    for items in [0, 2, 255] {
        let expected = second(Part::Edge, 6, items, 1, 2, 79);
        assert_eq!(refusal_place(&with(&[(85, items as u8)])), Some(expected));
    }
    let expected = Place {
        index: Some(0),
        ..second(Part::Channel, 0, 2, 0, 2, 86)
    };
    assert_eq!(refusal_place(&with(&[(86, 2)])), Some(expected));
    let expected = second(Part::Edge, 5, 5, 0, 5, 79);
    assert_eq!(refusal_place(&with(&[(84, 5)])), Some(expected));
    assert_eq!(refusal_place(&with(&[(84, 4)])).map(|p| p.number), Some(4));
}

/// The ends of the first component's parts behind its first 7 bytes, with the edge
/// and the index.
const ENDS: [(u32, Part, Option<u8>, Option<u8>); 13] = [
    (17, Part::Location, None, Some(0)),
    (20, Part::Location, None, Some(1)),
    (23, Part::Location, None, Some(2)),
    (30, Part::Edge, Some(0), None),
    (35, Part::ClockBound, Some(0), Some(0)),
    (40, Part::ClockBound, Some(0), Some(1)),
    (45, Part::DataBound, Some(0), Some(0)),
    (49, Part::Update, Some(0), Some(0)),
    (53, Part::Update, Some(0), Some(1)),
    (60, Part::Edge, Some(1), None),
    (65, Part::ClockBound, Some(1), Some(0)),
    (67, Part::Pair, Some(1), Some(0)),
    (69, Part::Pair, Some(1), Some(1)),
];

/// The first component ends at each byte, once by its stated length, once by the
/// table's end as well.
#[test]
fn each_part_cut_at_each_byte() {
    for end in 14..69 {
        let start = |at: usize| if at == 0 { 14 } else { ENDS[at - 1].0 };
        let cut = ENDS.iter().position(|part| end < part.0).unwrap();
        let (behind, part, edge, index) = ENDS[cut];
        let expected = Place {
            edge,
            index,
            value: end - start(cut),
            least: behind - start(cut),
            limit: 8193,
            ..place(4, part, start(cut))
        };
        let mut bytes = with(&[(8, (end - 7) as u8)]);
        assert_eq!(refusal_place(&bytes), Some(expected), "{end}");
        bytes.truncate(end as usize);
        bytes[2] = end as u8;
        assert_eq!(refusal_place(&bytes), Some(expected), "{end}");
    }
}

#[test]
fn lengths_that_are_too_short_or_too_long() {
    for length in 0..7 {
        let expected = Place {
            value: length,
            least: 7,
            limit: 8193,
            ..place(4, Part::Head, 7)
        };
        assert_eq!(refusal_place(&with(&[(8, length as u8)])), Some(expected));
    }
    for (length, end) in [(81, 87), (255, 87), (81, 80), (74, 80)] {
        let mut bytes = with(&[(8, length), (2, end)]);
        bytes.truncate(end.into());
        let expected = Place {
            width: 2,
            value: length.into(),
            limit: u32::from(end) - 7 + 1,
            ..place(4, Part::Length, 7)
        };
        assert_eq!(refusal_place(&bytes), Some(expected));
    }
    for (end, there) in [(69, 0), (70, 1)] {
        let mut bytes = with(&[(2, end)]);
        bytes.truncate(end.into());
        let expected = Place {
            component: 1,
            value: there,
            least: 2,
            limit: 8193,
            ..place(4, Part::Length, 69)
        };
        assert_eq!(refusal_place(&bytes), Some(expected));
    }
}

#[test]
fn bytes_left_over() {
    let expected = |part, component, start, value| Place {
        component,
        value,
        ..place(4, part, start)
    };
    for more in 1..=18 {
        let longer = with(&[(8, 62 + more)]);
        let left = expected(Part::ComponentEnd, 0, 69, more.into());
        assert_eq!(refusal_place(&longer), Some(left));
        let mut behind = with(&[(2, 87 + more)]);
        behind.resize(87 + usize::from(more), 0);
        let left = expected(Part::TableEnd, 1, 87, more.into());
        assert_eq!(refusal_place(&behind), Some(left));
        behind[70] = 18 + more;
        let left = expected(Part::ComponentEnd, 1, 87, more.into());
        assert_eq!(refusal_place(&behind), Some(left));
    }
    let left = expected(Part::TableEnd, 0, 69, 18);
    assert_eq!(refusal_place(&with(&[(3, 1)])), Some(left));
}

/// Eight pairs on eight channels, one of them a channel of before.
#[test]
fn a_channel_listed_twice_at_each_pair() {
    for later in 1..8u8 {
        for earlier in 0..later {
            let mut pairs: Vec<(u8, u8)> = (0..8).map(|channel| (channel, 0)).collect();
            pairs[usize::from(later)].0 = earlier;
            let mut table = probe_and_hub_table();
            table.channels = 8;
            table.components[1].edges[0].action = receive(&pairs);
            let expected = Place {
                component: 1,
                edge: Some(0),
                index: Some(later),
                width: 1,
                value: earlier.into(),
                limit: 8,
                ..place(6, Part::Pair, 73 + 2 * u32::from(later))
            };
            assert_eq!(refusal_place(&write_table(&table)), Some(expected));
        }
    }
}

/// Tables of the vectors, and each with bytes changed at random.
fn for_each_damaged(rounds: usize, mut test: impl FnMut(&[u8])) {
    let mut numbers = Numbers(362436069);
    let own = vectors_of_places().into_iter();
    let checked = vectors().into_iter().filter(|v| v.request[0] == "check");
    for vector in own.chain(checked) {
        let bytes = unhex(&vector.request[1]);
        test(&bytes);
        for _ in 0..rounds {
            let mut bytes = bytes.clone();
            change(&mut bytes, &mut numbers);
            test(&bytes);
        }
    }
}

/// A place is told exactly where 4 to 6 refuse, with their number and component.
#[test]
fn places_are_those_of_the_refusals() {
    let mut counts = [0; 7];
    for_each_damaged(100, |bytes| {
        let told = refusal_place(bytes).map(|place| refused(place.number, place.component));
        let refusal = read_table(bytes).err();
        assert_eq!(
            told,
            refusal.filter(|refusal| refusal.number > 3),
            "{}",
            hex(bytes)
        );
        counts[told.map_or(0, |told| usize::from(told.number))] += 1;
    });
    println!("{counts:?}");
    assert!(counts[0].min(counts[4]).min(counts[5]) > 5000 && counts[6] > 10);
}

/// A number at fault stands where the place says, and is out of its range. With one
/// in range in its stead the walk comes further.
#[test]
fn a_number_put_right_is_passed() {
    let mut counts = [0; 2];
    for_each_damaged(20, |bytes| {
        let Some(place) = refusal_place(bytes) else {
            return;
        };
        let Place {
            least,
            limit,
            value,
            ..
        } = place;
        if place.width == 0 {
            assert!(!(least..limit).contains(&value), "{place}");
            return;
        }
        let at = (place.start + place.offset) as usize;
        let own = at..at + place.width as usize;
        let stands = bytes[own.clone()]
            .iter()
            .fold(0, |sum, b| sum << 8 | u32::from(*b));
        assert_eq!(stands, value, "{place}");
        assert_eq!(
            (least..limit).contains(&value),
            place.number == 6,
            "{place}"
        );
        if place.number != 5 || least == limit {
            counts[0] += 1;
            return;
        }
        for right in [least, limit - 1] {
            let mut bytes = bytes.to_vec();
            let digits = right.to_be_bytes();
            bytes[own.clone()].copy_from_slice(&digits[4 - place.width as usize..]);
            let next = refusal_place(&bytes).map(|next| (next.start, next.number, next.offset));
            let further = |next| next > (place.start, 5, place.offset);
            assert!(next.is_none_or(further), "{place}");
            counts[1] += 1;
        }
    });
    println!("{counts:?}");
    assert!(counts[0] > 100 && counts[1] > 5000);
}
