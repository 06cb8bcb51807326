//! Where checks 4 to 6 stop in a table: the part that is read there, the number
//! at fault, and what is allowed in its place.
//!
//! "Then, reading front to back, the first fault counts; each part (component, its
//! first 7 bytes, location, edge's 7 bytes, bound, item) must fit before its
//! contents are tried, for 5, then 6". This is a walk of its own along the bytes,
//! which shares nothing with the reader behind the header: each part is tried for
//! its fit, then its numbers one after the other in the order of its bytes.

mod numbers;

use crate::table::*;
use numbers::{Counts, Number};
use std::fmt;

/// What a part may have at most and one more: no table is longer.
const PAST_LENGTH: u32 = *LENGTHS.end() as u32 + 1;

/// A part of a table, with its number.
#[derive(Clone, Copy, Debug, PartialEq, Eq)]
pub enum Part {
    /// A component's length.
    Length = 1,
    /// A component's first 7 bytes, which begin with its length.
    Head = 2,
    /// A location.
    Location = 3,
    /// An edge's 7 bytes.
    Edge = 4,
    /// A clock bound.
    ClockBound = 5,
    /// A data bound.
    DataBound = 6,
    /// An update: the item of an internal edge.
    Update = 7,
    /// A channel: the item of a send edge.
    Channel = 8,
    /// A pair: the item of a receive edge.
    Pair = 9,
    /// The end of a component.
    ComponentEnd = 10,
    /// The end of the table.
    TableEnd = 11,
    /// An edge's budget.
    Budget = 12,
}

impl Part {
    /// How many bytes it has.
    fn size(self) -> usize {
        match self {
            Part::Length | Part::Pair | Part::Budget => 2,
            Part::Head | Part::Edge => 7,
            Part::Location => 3,
            Part::ClockBound | Part::DataBound => 5,
            Part::Update => 4,
            Part::Channel => 1,
            Part::ComponentEnd | Part::TableEnd => 0,
        }
    }
}

/// Where one of checks 4 to 6 is not passed.
#[derive(Clone, Copy, Debug, PartialEq, Eq)]
pub struct Place {
    /// The number of the check.
    pub number: u8,
    /// The component that is read.
    pub component: u8,
    /// The part that is read.
    pub part: Part,
    /// The edge that the part belongs to, if it does to one.
    pub edge: Option<u8>,
    /// Which location, bound, update, channel or pair it is, if it is one.
    pub index: Option<u8>,
    /// The place in the table of the part's first byte.
    pub start: u32,
    /// The place in the part of the number at fault.
    pub offset: u32,
    /// The bytes of that number, 1 or 2; 0 where it is none of the part, but how
    /// many bytes there are for it.
    pub width: u32,
    /// What stands there, or how many bytes there are.
    pub value: u32,
    /// The least that is allowed.
    pub least: u32,
    /// What is allowed lies below this.
    pub limit: u32,
    /// Whether [`NO_HIGH`] is allowed too.
    pub unbounded: bool,
}

/// As the vectors write it: twelve words in the order of the fields, `-` for no edge
/// and for no index, 1 or 0 for whether it is unbounded.
impl fmt::Display for Place {
    fn fmt(&self, out: &mut fmt::Formatter<'_>) -> fmt::Result {
        let word = |number: Option<u8>| number.map_or("-".to_string(), |n| n.to_string());
        let (edge, index) = (word(self.edge), word(self.index));
        let (number, component, part) = (self.number, self.component, self.part as u8);
        write!(out, "{number} {component} {part} {edge} {index}")?;
        for number in [self.start, self.offset, self.width] {
            write!(out, " {number}")?;
        }
        for number in [self.value, self.least, self.limit, self.unbounded.into()] {
            write!(out, " {number}")?;
        }
        Ok(())
    }
}

/// Where checks 4 to 6 stop; nothing where none of them refuses the table.
pub fn refusal_place(table: &[u8]) -> Option<Place> {
    check_header(table).ok()?;
    let (version, components, channels) = (table[0], table[3], table[4]);
    let bands = match Table::has_bands(version) {
        true => usize::from(channels),
        false => 0,
    };
    let mut walk = Walk {
        table,
        budgets: Table::has_budgets(version),
        component: 0,
        edge: None,
        at: 7 + bands,
        end: table.len(),
    };
    walk.components(components, channels).err()
}

/// What was walked along, or where the walk stops.
type Walked<T> = Result<T, Place>;

/// A part with its index, if it has one, and the place of its first byte.
type Located = (Part, Option<u8>, usize);

/// A walk along the bytes of a table.
struct Walk<'a> {
    table: &'a [u8],
    /// Whether each edge has a budget.
    budgets: bool,
    /// The component that is read.
    component: u8,
    /// The edge that is read, if one is.
    edge: Option<u8>,
    /// The next byte to be read.
    at: usize,
    /// Where the bytes end that may be read: at the component's end, or at the
    /// table's.
    end: usize,
}

impl<'a> Walk<'a> {
    /// All components, "and the last component at the table's end".
    fn components(&mut self, count: u8, channels: u8) -> Walked<()> {
        for component in 0..count {
            self.component = component;
            self.component(channels)?;
            self.end = self.table.len();
        }
        self.nothing_left(Part::TableEnd)
    }

    /// The length, the first 7 bytes, "then locations, then edges".
    fn component(&mut self, channels: u8) -> Walked<()> {
        let start = self.at;
        let length = self.length()?;
        (self.at, self.end) = (start, start + length);
        let head = self.part(Part::Head, None, numbers::head)?;
        let counts = Counts {
            locations: head[2].into(),
            clocks: head[4].into(),
            variables: head[5].into(),
            channels: channels.into(),
        };
        for index in 0..head[2] {
            self.part(Part::Location, Some(index), |_| numbers::location(&counts))?;
        }
        for edge in 0..head[6] {
            self.edge = Some(edge);
            self.edge(&counts)?;
        }
        self.edge = None;
        self.nothing_left(Part::ComponentEnd)
    }

    /// The length that a component states: more than there is does not fit.
    fn length(&mut self) -> Walked<usize> {
        let start = self.at;
        let stated = numbers::length(self.table.len() - start);
        let value = stated.value(self.part(Part::Length, None, |_| [])?);
        match stated.allows(value) {
            true => Ok(value as usize),
            false => Err(self.at_fault(4, (Part::Length, None, start), &stated, value)),
        }
    }

    /// An edge's 7 bytes, its budget where it has one, then its clock bounds, its data
    /// bounds, its items.
    fn edge(&mut self, counts: &Counts) -> Walked<()> {
        let edge = self.part(Part::Edge, None, |edge| numbers::edge(counts, edge))?;
        if self.budgets {
            self.part(Part::Budget, None, |_| [numbers::budget()])?;
        }
        for index in 0..edge[4] {
            self.part(Part::ClockBound, Some(index), |_| {
                numbers::clock_bound(counts)
            })?;
        }
        for index in 0..edge[5] {
            self.part(Part::DataBound, Some(index), |_| {
                numbers::data_bound(counts)
            })?;
        }
        match edge[0] {
            0 => self.updates(counts, edge[6]),
            1 => self.channel(counts),
            _ => self.pairs(counts, edge[6]),
        }
    }

    fn updates(&mut self, counts: &Counts, count: u8) -> Walked<()> {
        for index in 0..count {
            self.part(Part::Update, Some(index), |_| numbers::update(counts))?;
        }
        Ok(())
    }

    /// "Send: exactly one item, 1 byte, the channel."
    fn channel(&mut self, counts: &Counts) -> Walked<()> {
        self.part(Part::Channel, Some(0), |_| [numbers::channel(counts)])?;
        Ok(())
    }

    /// "6. Does no receive edge list a channel twice? Else 6.", asked of each pair
    /// once its numbers are in range.
    fn pairs(&mut self, counts: &Counts, count: u8) -> Walked<()> {
        let mut listed = Vec::new();
        for index in 0..count {
            let place = (Part::Pair, Some(index), self.at);
            let pair = self.part(Part::Pair, Some(index), |_| numbers::pair(counts))?;
            let channel = pair[0];
            if listed.contains(&channel) {
                return Err(self.at_fault(6, place, &numbers::channel(counts), channel.into()));
            }
            listed.push(channel);
        }
        Ok(())
    }

    /// Reads a part: tries whether it fits, then its numbers, which may hang on
    /// what stands in it.
    fn part<const N: usize>(
        &mut self,
        part: Part,
        index: Option<u8>,
        numbers: impl FnOnce(&[u8]) -> [Number; N],
    ) -> Walked<&'a [u8]> {
        let (start, there) = (self.at, self.end - self.at);
        if there < part.size() {
            let enough = Number::of_bytes(part.size() as u32..PAST_LENGTH);
            return Err(self.at_fault(4, (part, index, start), &enough, there as u32));
        }
        self.at = start + part.size();
        let bytes = &self.table[start..self.at];
        for number in numbers(bytes) {
            let value = number.value(bytes);
            if !number.allows(value) {
                return Err(self.at_fault(5, (part, index, start), &number, value));
            }
        }
        Ok(bytes)
    }

    /// "and end exactly there": no byte may be left before the end.
    fn nothing_left(&self, part: Part) -> Walked<()> {
        let left = self.end - self.at;
        match left {
            0 => Ok(()),
            _ => {
                let none = Number::of_bytes(0..1);
                Err(self.at_fault(4, (part, None, self.at), &none, left as u32))
            }
        }
    }

    /// The place of a number that a check does not pass.
    fn at_fault(
        &self,
        check: u8,
        (part, index, start): Located,
        number: &Number,
        value: u32,
    ) -> Place {
        Place {
            number: check,
            component: self.component,
            part,
            edge: self.edge,
            index,
            start: start as u32,
            offset: number.offset as u32,
            width: number.width as u32,
            value,
            least: number.allowed.start,
            limit: number.allowed.end,
            unbounded: number.unbounded,
        }
    }
}
