//! Where components are at ticks: document 02's wish 11.
//!
//! Each pair is sought from the front of the schedule, and the passages read are
//! counted afterwards: no walk is made, let alone one walk.

use crate::schedule::Passage;
use crate::table::{Refusal, Table};

/// A question: a pair "of component and tick".
#[derive(Clone, Copy, Debug, PartialEq, Eq)]
pub struct Question {
    /// The component.
    pub component: u32,
    /// The tick.
    pub tick: u32,
}

/// Where a component is at a tick.
#[derive(Clone, Copy, Debug, PartialEq, Eq)]
pub struct Position {
    /// The place of its passage in the schedule.
    pub passage: usize,
    /// "whether the tick lies before ready or in the window".
    pub in_window: bool,
}

impl Position {
    /// "3 bytes each: passage number (2), then 0 before ready or 1 in the window".
    pub fn bytes(&self) -> [u8; 3] {
        let [high, low] = (self.passage as u16).to_be_bytes();
        [high, low, u8::from(self.in_window)]
    }
}

/// The answers to pairs.
#[derive(Clone, Debug, PartialEq, Eq)]
pub struct Positions {
    /// "Answers stand in the order asked".
    pub answers: Vec<Position>,
    /// "The reported number of passages read".
    pub read: usize,
}

/// The answers to pairs about an accepted table.
pub fn positions(
    table: &Table,
    passages: &[Passage],
    pairs: &[Question],
) -> Result<Positions, Refusal> {
    if let Some((_, number)) = first_bad(table, pairs) {
        return Err(Refusal::whole(number));
    }
    let answers = pairs.iter().map(|pair| position(passages, pair)).collect();
    let read = read(passages, pairs);
    Ok(Positions { answers, read })
}

/// "The first bad pair decides: 21 as in Wish 7 comes first, then 24 for a tick below
/// its predecessor's": its place among the pairs and the number.
pub fn first_bad(table: &Table, pairs: &[Question]) -> Option<(usize, u8)> {
    let bad = |place: usize| {
        let Question { component, tick } = pairs[place];
        if component as usize >= table.components.len() || tick >= u32::from(table.horizon) {
            return Some((place, 21));
        }
        (place > 0 && tick < pairs[place - 1].tick).then_some((place, 24))
    };
    (0..pairs.len()).find_map(bad)
}

/// "the passages are those that Wish 7 names": the component's "whose entry is at or
/// before the tick and whose end lies after it".
fn position(passages: &[Passage], pair: &Question) -> Position {
    let named = |passage: &Passage| {
        u32::from(passage.component) == pair.component
            && passage.entry <= pair.tick
            && passage.end > pair.tick
    };
    let number = passages.iter().position(named);
    let number = number.expect("at each tick below H a component is in a passage");
    let Passage { ready, end, .. } = passages[number];
    Position {
        passage: number,
        in_window: (ready..=end).contains(&pair.tick),
    }
}

/// "the passages whose entry is at or before the last tick asked, 0 for no questions".
fn read(passages: &[Passage], pairs: &[Question]) -> usize {
    let Some(last) = pairs.last() else {
        return 0;
    };
    let entered = passages.iter().filter(|passage| passage.entry <= last.tick);
    entered.count()
}
