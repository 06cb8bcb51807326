//! Where a table is refused: the place in its bytes at which checks 4 to 6
//! stop, and the opening at which checks 7 to 9 do.

mod exported;

use crate::{Entry, UnknownNumber};
use std::fmt;

/// What a part of a table is.
#[derive(Clone, Copy, Debug, PartialEq, Eq)]
#[repr(u8)]
pub enum Part {
    /// 1: the two bytes of a component's length.
    ComponentLength = 1,
    /// 2: its first 7 bytes, the length among them.
    ComponentHead = 2,
    /// 3: a location, 3 bytes.
    Location = 3,
    /// 4: an edge's first 7 bytes.
    EdgeHead = 4,
    /// 5: a clock bound, 5 bytes.
    ClockBound = 5,
    /// 6: a data bound, 5 bytes.
    DataBound = 6,
    /// 7: an update of an internal edge, 4 bytes.
    Update = 7,
    /// 8: the channel of a send, 1 byte.
    Channel = 8,
    /// 9: a pair of a receive, 2 bytes.
    Pair = 9,
    /// 10: what is left over in a component behind its last edge.
    ComponentEnd = 10,
    /// 11: what is left over behind the last component.
    TableEnd = 11,
    /// 12: the budget of an edge in version 3, 2 bytes.
    Budget = 12,
}

impl Part {
    /// All parts, in the order of their numbers, which start with 1.
    pub const ALL: [Part; 12] = [
        Part::ComponentLength,
        Part::ComponentHead,
        Part::Location,
        Part::EdgeHead,
        Part::ClockBound,
        Part::DataBound,
        Part::Update,
        Part::Channel,
        Part::Pair,
        Part::ComponentEnd,
        Part::TableEnd,
        Part::Budget,
    ];

    /// Its number, 1 to 12.
    pub fn number(self) -> u8 {
        self as u8
    }
}

impl TryFrom<u8> for Part {
    type Error = UnknownNumber;

    fn try_from(number: u8) -> Result<Part, UnknownNumber> {
        let place = usize::from(number).wrapping_sub(1);
        let found = Part::ALL.get(place).copied();
        found.ok_or(UnknownNumber(number))
    }
}

impl fmt::Display for Part {
    fn fmt(&self, out: &mut fmt::Formatter<'_>) -> fmt::Result {
        out.pad(match self {
            Part::ComponentLength => "component's length",
            Part::ComponentHead => "component's first 7 bytes",
            Part::Location => "location",
            Part::EdgeHead => "edge",
            Part::ClockBound => "clock bound",
            Part::DataBound => "data bound",
            Part::Update => "update",
            Part::Channel => "channel",
            Part::Pair => "pair",
            Part::ComponentEnd => "component's end",
            Part::TableEnd => "table's end",
            Part::Budget => "budget",
        })
    }
}

/// Where checks 4 to 6 stop: the part that was being read, and what is wrong in
/// it.
#[derive(Clone, Copy, Debug, PartialEq, Eq)]
pub struct Place {
    /// The number of the refusal: 4, 5 or 6.
    pub number: u8,
    /// The component being read.
    pub component: u8,
    /// What kind of part it is.
    pub part: Part,
    /// The edge that the part belongs to.
    pub edge: Option<u8>,
    /// Which location, or which bound, update, channel or pair of the edge.
    pub index: Option<u8>,
    /// The place in the table of the part's first byte.
    pub start: u32,
    /// The place in the part of the number at fault.
    pub offset: u32,
    /// Its bytes, 1 or 2. With 0 it is no number of the part, but how many bytes
    /// there are for the part, or are left over.
    pub width: u32,
    /// What stands there, or how many bytes there are.
    pub value: u32,
    /// The least that is allowed.
    pub least: u32,
    /// Up to this, and without it, numbers are allowed; none where it is
    /// `least`. After 6 the value is in this range, but stands in an earlier
    /// pair of the edge.
    pub limit: u32,
    /// Whether 65,535, which stands for none, is allowed too.
    pub unbounded: bool,
}

/// Tells where checks 4 to 6 stop, if it is one of them that refuses the table:
/// the first fault, read front to back. Number and component are those of
/// [`check`](crate::check).
///
/// ```
/// use timed_network::{plan, refusal_place, Part, Slots, MAX_PLAN};
///
/// let [probes, slot, guard, period] = [1, 40, 5, 500];
/// let mut table = [0; MAX_PLAN];
/// let size = plan(Slots { probes, slot, guard, period }, &mut table).size;
/// assert_eq!(refusal_place(&table[..size]), None);
///
/// // Byte 9 is the count of component 0's locations, 1 to 16.
/// table[9] = 17;
/// let place = refusal_place(&table[..size]).unwrap();
/// assert_eq!((place.number, place.component), (5, 0));
/// assert_eq!((place.part, place.start + place.offset), (Part::ComponentHead, 9));
/// assert_eq!((place.value, place.least..place.limit), (17, 1..17));
/// ```
pub fn refusal_place(table: &[u8]) -> Option<Place> {
    let answer = exported::refusal_place(table);
    (answer.number != 0).then(|| Place {
        number: answer.number,
        component: answer.component,
        part: Part::try_from(answer.part).expect("the library gives no other part"),
        edge: some(answer.edge),
        index: some(answer.index),
        start: answer.start,
        offset: answer.offset,
        width: answer.width,
        value: answer.value,
        least: answer.least,
        limit: answer.limit,
        unbounded: answer.unbounded,
    })
}

/// The opening of a passage that checks 7 to 9 refuse, and why.
#[derive(Clone, Copy, Debug, PartialEq, Eq)]
pub struct RefusedOpening {
    /// The number of the refusal: 7, 8 or 9.
    pub number: u8,
    /// How many passages were opened before it: its number, counted from 0.
    pub passage: u32,
    /// The tick of its entry.
    pub tick: u32,
    /// The component, the location that it enters, and the clocks and variables
    /// at the entry, as [`edge_choice`](crate::edge_choice) takes them; those
    /// that the component does not have are 0. With 7 as if the passage opened.
    pub entry: Entry,
    /// With 8, how many edges leave the location, else 0.
    pub leaving: u8,
    /// Of how many of them a data bound fails.
    pub blocked: u8,
    /// How many others have no window of at least one tick's length, or one that is
    /// shorter than their budget.
    pub windowless: u8,
    /// With 9, the edge taken and the number, counted from 0, of its first
    /// update that leaves -32,768 to 32,767.
    pub overflow: Option<(u8, u8)>,
}

/// Tells at which opening checks 7 to 9 stop, if it is one of them that refuses
/// the table. Number and component are those of [`check`](crate::check).
///
/// ```
/// use timed_network::{edge_choice, plan, refused_opening, Slots, MAX_PLAN};
///
/// let [probes, slot, guard, period] = [1, 40, 5, 500];
/// let mut table = [0; MAX_PLAN];
/// let size = plan(Slots { probes, slot, guard, period }, &mut table).size;
/// let table = &mut table[..size];
/// assert_eq!(refused_opening(table), None);
///
/// // Byte 16 is the low byte of the bound of component 0's location 0: at 5 ticks
/// // its edge, ready from tick 5 on, has no window any more.
/// table[16] = 5;
/// let opening = refused_opening(table).unwrap();
/// assert_eq!((opening.number, opening.entry.component), (8, 0));
/// assert_eq!((opening.passage, opening.tick), (0, 0));
/// assert_eq!((opening.leaving, opening.blocked, opening.windowless), (1, 0, 1));
/// let choice = edge_choice(table, &opening.entry).unwrap();
/// assert_eq!(choice.taken, None);
/// ```
pub fn refused_opening(table: &[u8]) -> Option<RefusedOpening> {
    let answer = exported::refused_opening(table);
    (answer.number != 0).then(|| RefusedOpening {
        number: answer.number,
        passage: answer.passage,
        tick: answer.tick,
        entry: answer.entry,
        leaving: answer.leaving,
        blocked: answer.blocked,
        windowless: answer.windowless,
        overflow: some(answer.edge).zip(some(answer.update)),
    })
}

/// A number, where 255 is none.
fn some(number: u8) -> Option<u8> {
    Some(number).filter(|number| *number != 255)
}
