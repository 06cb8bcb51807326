//! A batch of where-was-it (document 02, wish 11): which passages components are in at
//! ticks, all in one walk through the schedule.

mod exported;

use crate::{Refused, Verdict};

/// The bytes of an answer: the passage's number (2, the highest first), then 0 before
/// ready or 1 in the window.
pub const POSITION: usize = 3;

/// Where a component is at a tick.
#[derive(Clone, Copy, Debug, PartialEq, Eq)]
pub struct Position {
    /// The place of its passage in the schedule, counted from 0: the passage whose entry
    /// is at or before the tick and whose end lies after it.
    pub passage: u16,
    /// Whether the tick lies in the window, else it is before ready.
    pub in_window: bool,
}

/// From the bytes of an answer.
///
/// ```
/// use timed_network::Position;
///
/// let position = Position::from([1, 2, 1]);
/// assert_eq!((position.passage, position.in_window), (258, true));
/// ```
impl From<[u8; POSITION]> for Position {
    fn from([high, low, window]: [u8; POSITION]) -> Position {
        Position {
            passage: u16::from_be_bytes([high, low]),
            in_window: window != 0,
        }
    }
}

/// Where components are at ticks.
#[derive(Clone, Debug, PartialEq, Eq)]
pub struct Positions {
    /// An answer for each pair, in the order asked.
    pub answers: Vec<Position>,
    /// How many passages of the schedule were read: those whose entry is at or before
    /// the last tick asked, 0 for no pairs.
    pub read: usize,
}

/// The answer of [`positions_of_numbers`].
#[derive(Clone, Copy, Debug, PartialEq, Eq)]
pub struct Positioned {
    /// Checks 1 to 12, then 21 and 24 for the pairs, then 13 where too little is lent.
    pub verdict: Verdict,
    /// How many passages were read; 0 after a refusal.
    pub read: usize,
}

/// Tells where components are at ticks: pairs of component and tick, sorted by tick.
///
/// Refused with 1 to 12 as [`crate::check`] refuses; then the first bad pair decides:
/// with 21 where its component is absent or its tick not below the horizon, else with 24
/// where its tick is below that of the pair before it.
///
/// ```
/// use timed_network::{plan, positions, Refusal, Slots, MAX_PLAN};
///
/// let [probes, slot, guard, period] = [1, 40, 5, 500];
/// let mut table = [0; MAX_PLAN];
/// let size = plan(Slots { probes, slot, guard, period }, &mut table).size;
/// let told = positions(&table[..size], &[(0, 4), (0, 5), (1, 5)])?;
/// let windows = told.answers.iter().map(|position| position.in_window);
/// assert_eq!(windows.collect::<Vec<_>>(), [false, true, true]);
/// assert_eq!((told.answers[2].passage, told.read), (1, 2));
/// let refused = positions(&table[..size], &[(0, 5), (0, 4)]).unwrap_err();
/// assert_eq!(refused.refusal, Refusal::Order);
/// # Ok::<(), timed_network::Refused>(())
/// ```
pub fn positions(table: &[u8], pairs: &[(u32, u32)]) -> Result<Positions, Refused> {
    let numbers: Vec<u32> = pairs.iter().flat_map(|(c, tick)| [*c, *tick]).collect();
    let mut bytes = vec![0; POSITION * pairs.len()];
    let told = positions_of_numbers(table, &numbers, &mut bytes);
    told.verdict.into_result()?;
    let (answers, _) = bytes.as_chunks::<POSITION>();
    Ok(Positions {
        answers: answers.iter().copied().map(Position::from).collect(),
        read: told.read,
    })
}

/// The same over lent numbers and bytes: the pairs as a component and its tick in turn (a
/// number left over at the end is no pair), [`POSITION`] bytes an answer. What stands past
/// the answers stays; after a refusal all bytes do.
///
/// ```
/// use timed_network::{positions_of_numbers, Verdict};
///
/// let mut bytes = [7; 6];
/// let told = positions_of_numbers(&[], &[0, 0], &mut bytes);
/// let (number, component) = (1, 255);
/// assert_eq!(told.verdict, Verdict::Refused { number, component });
/// assert_eq!((told.read, bytes), (0, [7; 6]));
/// ```
pub fn positions_of_numbers(table: &[u8], numbers: &[u32], answers: &mut [u8]) -> Positioned {
    let answer = exported::positions(table, numbers, answers);
    Positioned {
        verdict: Verdict::of(answer.number, answer.component),
        read: answer.read as usize,
    }
}
