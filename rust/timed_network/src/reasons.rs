//! Why this edge (document 02, wish 7): which passage a component is in at a tick,
//! and the reason of each edge from there.

mod exported;

use crate::{Refused, UnknownNumber, Verdict};
use std::fmt;

/// The bytes of an edge: its number, the number of its reason, and its data bound.
pub const REASON: usize = 3;
/// The bytes that hold the reasons of any location.
pub const REASONS_ENOUGH: usize = 3 * 32;

/// The third byte of an edge whose reason is no data bound.
const NO_BOUND: u8 = 255;

/// Why an edge is taken, or not. Of several reasons the first one holds.
///
/// ```
/// use timed_network::Reason;
///
/// assert_eq!(Reason::try_from([1, 2])?, Reason::DataBound(2));
/// assert_eq!(Reason::DataBound(2).to_string(), "data bound 2 fails");
/// assert!(Reason::try_from([5, 255]).is_err());
/// # Ok::<(), timed_network::UnknownNumber>(())
/// ```
#[derive(Clone, Copy, Debug, PartialEq, Eq)]
pub enum Reason {
    /// 0: it is the edge taken.
    Taken,
    /// 1: a data bound fails, the first of them by its number within the edge.
    DataBound(u8),
    /// 2: it has no window of at least one tick's length, or one that is shorter than
    /// its budget.
    NoWindow,
    /// 3: it is ready later than the edge taken.
    ReadyLater,
    /// 4: it is ready together with the edge taken, but numbered higher.
    HigherNumber,
}

impl Reason {
    /// Its number, 0 to 4.
    pub fn number(self) -> u8 {
        match self {
            Reason::Taken => 0,
            Reason::DataBound(_) => 1,
            Reason::NoWindow => 2,
            Reason::ReadyLater => 3,
            Reason::HigherNumber => 4,
        }
    }

    /// The data bound that fails, if that is the reason.
    pub fn bound(self) -> Option<u8> {
        match self {
            Reason::DataBound(bound) => Some(bound),
            _ => None,
        }
    }
}

/// From the number of the reason and the data bound, as the library writes them.
impl TryFrom<[u8; 2]> for Reason {
    type Error = UnknownNumber;

    fn try_from([number, bound]: [u8; 2]) -> Result<Reason, UnknownNumber> {
        match (number, bound) {
            (0, NO_BOUND) => Ok(Reason::Taken),
            (1, 0..=3) => Ok(Reason::DataBound(bound)),
            (2, NO_BOUND) => Ok(Reason::NoWindow),
            (3, NO_BOUND) => Ok(Reason::ReadyLater),
            (4, NO_BOUND) => Ok(Reason::HigherNumber),
            (0..=4, _) => Err(UnknownNumber(bound)),
            _ => Err(UnknownNumber(number)),
        }
    }
}

impl fmt::Display for Reason {
    fn fmt(&self, out: &mut fmt::Formatter<'_>) -> fmt::Result {
        match self {
            Reason::Taken => out.pad("taken"),
            Reason::DataBound(bound) => out.pad(&format!("data bound {bound} fails")),
            Reason::NoWindow => out.pad("no window of at least one tick, or of its budget"),
            Reason::ReadyLater => out.pad("ready later"),
            Reason::HigherNumber => out.pad("ready together, numbered higher"),
        }
    }
}

/// A passage, and the edges from its location.
#[derive(Clone, Debug, PartialEq, Eq)]
pub struct Reasons {
    /// The place of the passage in the schedule, counted from 0.
    pub passage: u32,
    /// The edges by number, each with its reason; exactly one is taken.
    pub edges: Vec<(u8, Reason)>,
}

/// The answer of [`reasons_into`].
#[derive(Clone, Copy, Debug, PartialEq, Eq)]
pub struct Told {
    /// Checks 1 to 12, then 21 for the question, then 13 where too little is lent.
    pub verdict: Verdict,
    /// The place of the passage in the schedule; 0 after a refusal.
    pub passage: u32,
    /// How many edges are told; 0 after a refusal.
    pub size: usize,
}

/// Tells why a component takes the edge that it takes at a tick, which has to be
/// below the horizon: the passage whose entry is at or before the tick and whose end
/// lies after it, and of each edge from its location the reason.
///
/// ```
/// use timed_network::{plan, reasons, Reason, Refusal, Slots, MAX_PLAN};
///
/// let [probes, slot, guard, period] = [1, 40, 5, 500];
/// let mut table = [0; MAX_PLAN];
/// let size = plan(Slots { probes, slot, guard, period }, &mut table).size;
/// let told = reasons(&table[..size], 1, 0)?;
/// assert_eq!((told.passage, told.edges), (1, vec![(0, Reason::Taken)]));
/// let refused = reasons(&table[..size], 2, 0).unwrap_err();
/// assert_eq!(refused.refusal, Refusal::Question);
/// # Ok::<(), timed_network::Refused>(())
/// ```
pub fn reasons(table: &[u8], component: u32, tick: u32) -> Result<Reasons, Refused> {
    let mut bytes = [0; REASONS_ENOUGH];
    let told = reasons_into(table, component, tick, &mut bytes);
    told.verdict.into_result()?;
    let reason = |bytes: &[u8]| {
        let reason = Reason::try_from([bytes[1], bytes[2]]);
        (bytes[0], reason.expect("the library gives no other reason"))
    };
    let written = bytes[..REASON * told.size].chunks_exact(REASON);
    Ok(Reasons {
        passage: told.passage,
        edges: written.map(reason).collect(),
    })
}

/// The same over lent bytes, [`REASON`] an edge: its number, the number of its reason,
/// and its data bound, 255 unless that is the reason. What stands past them stays;
/// after a refusal all bytes do. [`REASONS_ENOUGH`] always suffice.
///
/// ```
/// use timed_network::{reasons_into, Verdict};
///
/// let mut bytes = [7; 6];
/// let told = reasons_into(&[], 0, 0, &mut bytes);
/// let (number, component) = (1, 255);
/// assert_eq!(told.verdict, Verdict::Refused { number, component });
/// assert_eq!((told.passage, told.size, bytes), (0, 0, [7; 6]));
/// ```
pub fn reasons_into(table: &[u8], component: u32, tick: u32, told: &mut [u8]) -> Told {
    let answer = exported::reasons(table, component, tick, told);
    Told {
        verdict: Verdict::of(answer.number, answer.component),
        passage: answer.passage,
        size: answer.size as usize,
    }
}
