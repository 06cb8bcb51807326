//! Places that are wrong in one point are found out.

mod finding;

use comparison::readers::{second_place, Locates, PlaceNumbers, Reader, NONE};
use finding::finder;
use std::cell::Cell;

/// The classes that are made for places.
fn of_places(class: &str) -> bool {
    let names = [
        "components of each",
        "tables of each",
        "each number",
        "channels listed",
    ];
    let damaged = class.ends_with("a byte or two changed");
    damaged || names.iter().any(|name| class.starts_with(name))
}

/// The classes of stored requests and of the corpus.
fn stored(class: &str) -> bool {
    class == "programs, parts and runs of the vectors" || class == "corpus"
}

/// Whether a class finds a place that is wrong.
fn finds(classes: fn(&str) -> bool, refusal_place: Locates) -> bool {
    let second = Reader::second();
    let library = Reader {
        refusal_place,
        ..second
    };
    finder(classes, library, second).is_some()
}

thread_local! {
    /// Which number, or which fault of the list, is tried.
    static TRIED: Cell<usize> = const { Cell::new(0) };
}

/// The second implementation's place, changed.
fn changed(table: &[u8], change: impl Fn(&mut PlaceNumbers)) -> Option<PlaceNumbers> {
    let mut place = second_place(table)?;
    change(&mut place);
    Some(place)
}

/// One of the numbers is one too much.
fn one_more(table: &[u8]) -> Option<PlaceNumbers> {
    changed(table, |place| place[TRIED.get()] += 1)
}

#[test]
fn each_number_is_compared() {
    for at in 0..12 {
        TRIED.set(at);
        assert!(finds(of_places, one_more), "{at}");
        assert!(finds(stored, one_more), "{at}");
    }
    assert!(!finds(of_places, second_place));
    assert!(!finds(stored, second_place));
}

/// Where these hold of a place, it is changed.
type Fault = (
    &'static str,
    fn(&PlaceNumbers) -> bool,
    fn(&[u8], &mut PlaceNumbers),
);

/// Faults of a place that concern some tables alone.
const FAULTS: [Fault; 16] = [
    (
        "bands forgotten",
        |_| true,
        |table, place| {
            if table[0] == 2 {
                place[5] -= u32::from(table[4]);
            }
        },
    ),
    (
        "a part is measured to the table's end",
        part_too_short,
        |table, place| {
            place[8] = table.len() as u32 - place[5];
        },
    ),
    (
        "bytes left over to the table's end",
        |place| place[2] == 10,
        |table, place| {
            place[8] = table.len() as u32 - place[5];
        },
    ),
    (
        "bytes left over of a component that is not read",
        |place| place[2] == 11,
        |_, place| {
            place[1] += 1;
        },
    ),
    (
        "no table is longer than 8,191",
        part_too_short,
        |_, place| place[10] = 8192,
    ),
    (
        "a stated length is a number",
        |place| place[7] == 2,
        |_, place| place[0] = 5,
    ),
    (
        "a stated length without its own two bytes",
        stated,
        |_, place| place[10] -= 2,
    ),
    (
        "a channel listed twice is a number",
        |place| place[0] == 6,
        |_, place| place[0] = 5,
    ),
    (
        "the pair listed before",
        |place| place[0] == 6,
        |_, place| place[4] -= 1,
    ),
    (
        "data bounds for a receive",
        |place| place[2] == 4 && place[6] == 5 && place[10] == 1,
        |_, place| {
            place[10] = 5;
        },
    ),
    (
        "a send without a channel",
        |place| place[9] == 1 && place[10] == 2,
        |_, place| place[9] = 0,
    ),
    (
        "a low without a bound",
        |place| place[2] == 5 && place[6] == 1,
        |_, place| place[11] = 1,
    ),
    (
        "a high with a bound alone",
        |place| place[11] == 1,
        |_, place| place[11] = 0,
    ),
    (
        "a channel has no index",
        |place| place[2] == 8,
        |_, place| place[4] = NONE.into(),
    ),
    (
        "a location has an edge",
        |place| place[2] == 3,
        |_, place| place[3] = 0,
    ),
    (
        "an edge's first bytes have an index",
        |place| place[2] == 4,
        |_, place| place[4] = 0,
    ),
];

/// Whether a part does not fit.
fn part_too_short(place: &PlaceNumbers) -> bool {
    place[0] == 4 && place[7] == 0 && place[2] < 10
}

/// Whether a component states too much.
fn stated(place: &PlaceNumbers) -> bool {
    place[0] == 4 && place[7] == 2
}

fn with_fault(table: &[u8]) -> Option<PlaceNumbers> {
    let (_, concerns, change) = FAULTS[TRIED.get()];
    changed(table, |place| {
        if concerns(place) {
            change(table, place);
        }
    })
}

#[test]
fn each_fault_is_found() {
    for (at, (name, ..)) in FAULTS.iter().enumerate() {
        TRIED.set(at);
        assert!(finds(of_places, with_fault), "{name}");
    }
}

/// A place for a table that has none.
fn always(table: &[u8]) -> Option<PlaceNumbers> {
    let header = [4, 0, 1, 255, 255, 7, 0, 0, 0, 2, 8193, 0];
    Some(second_place(table).unwrap_or(header))
}

/// No place where bytes are left over behind the last component.
fn not_at_the_end(table: &[u8]) -> Option<PlaceNumbers> {
    second_place(table).filter(|place| place[2] != 11)
}

#[test]
fn places_of_other_tables_and_none_are_found() {
    let faults: [Locates; 3] = [always, |_| None, not_at_the_end];
    for (at, wrong) in faults.into_iter().enumerate() {
        assert!(finds(of_places, wrong), "{at}");
        assert!(finds(stored, wrong), "{at}");
    }
}
