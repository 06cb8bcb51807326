//! What a verdict says: accepted, or which question is answered with no, as a
//! number, as an enum and in words.

use std::error::Error;
use std::fmt;

/// The component of a verdict that concerns none.
pub const NO_COMPONENT: u8 = 255;

/// Why a table or a call is refused: the question that is answered with no, by
/// the numbers of document 01; 15 to 29 are those of document 02. Displayed as
/// that question, in the words of the proved text (`crates/refusal_text`).
///
/// ```
/// use timed_network::Refusal;
///
/// let refusal = Refusal::try_from(16)?;
/// assert_eq!(refusal, Refusal::ListenerLate);
/// assert_eq!(refusal.number(), 16);
/// let question = "Does the one receive window that meets the send start earlier than it?";
/// assert_eq!(refusal.to_string(), question);
/// assert!(Refusal::try_from(0).is_err());
/// # Ok::<(), timed_network::UnknownNumber>(())
/// ```
#[derive(Clone, Copy, Debug, PartialEq, Eq, PartialOrd, Ord, Hash)]
#[repr(u8)]
pub enum Refusal {
    /// 1: the first byte is no version that there is.
    Version = 1,
    /// 2: the stated length is not that of the table, or out of range.
    Length = 2,
    /// 3: components, channels, horizon or a band are out of range.
    Header = 3,
    /// 4: a part does not fit its component, or bytes are left over.
    Layout = 4,
    /// 5: a number, or a budget, is out of its range.
    Range = 5,
    /// 6: a receive edge lists a channel twice.
    ChannelTwice = 6,
    /// 7: there are more than 1,024 passages up to the horizon.
    Passages = 7,
    /// 8: a passage opens and no edge is a candidate; it may be that every window is
    /// shorter than its budget.
    NoEdge = 8,
    /// 9: an update leaves its range.
    Update = 9,
    /// 10: two send windows on one band share a tick.
    SendsMeet = 10,
    /// 11: nobody listens to a send.
    NoListener = 11,
    /// 12: a receive window shares a tick with two sends.
    Crowded = 12,
    /// 13: what is lent does not hold the result.
    Lent = 13,
    /// 14: there are more than 1,000,000 choices.
    Choices = 14,
    /// 15: several listen to a send.
    SeveralListeners = 15,
    /// 16: the only listener does not start earlier than the send.
    ListenerLate = 16,
    /// 17: the only listener, which does, does not end later than it.
    ListenerShort = 17,
    /// 18: the numbers of a plan are out of range, or its slots do not fit.
    Plan = 18,
    /// 19: the spread is above 1,000 ticks.
    Spread = 19,
    /// 20: an offset is above the spread.
    Offset = 20,
    /// 21: a component that is asked about is absent, or a tick is not below the
    /// horizon.
    Question = 21,
    /// 22: the seed of a simulation is 0.
    Seed = 22,
    /// 23: the work times or the runs of a simulation are out of range.
    Simulation = 23,
    /// 24: the tick of a pair is below that of the pair before it.
    Order = 24,
    /// 25: an edge of a table that is to be exported has a budget other than 0.
    Budgets = 25,
    /// 26: a place of a site is none, filled when putting or empty when taking.
    SitePlace = 26,
    /// 27: a network present on a site has another horizon.
    Horizon = 27,
    /// 28: the airtime in use would be above the limit of a site.
    Airtime = 28,
    /// 29: the horizon of a run is 0, or above the table's and no state comes again.
    RunHorizon = 29,
}

/// The question of each refusal, in the order of their numbers.
const QUESTIONS: [&str; 29] = [
    "Is the first byte 1, 2 or 3?",
    "Is the stated length the length handed in, from 7 to 8,192?",
    "Are components, channels, horizon and bands in range?",
    "Does each part fit its component and end exactly there?",
    "Is every number in its range and every mask bit a clock?",
    "Does no receive edge list a channel twice?",
    "Are there at most 1,024 passages up to the horizon?",
    "Is there an edge with a window of a tick's length, no shorter than its budget?",
    "Does each update of the edge taken stay in range?",
    "Do no two send windows of different components on one band share a tick?",
    "Does a receive window on its channel share a tick with the send window?",
    "Does no receive window share a tick with two sends on its channels?",
    "Does the lent buffer hold the result?",
    "Are there at most 1,000,000 choices?",
    "Does only one receive window on its channel share a tick with the send?",
    "Does the one receive window that meets the send start earlier than it?",
    "Does the one receive window that meets the send end later than it?",
    "Are the numbers in range and probes x (slot + 2 x guard) below the period?",
    "Is the spread at most 1,000 ticks?",
    "Is no offset above the spread?",
    "Is the component there and the tick below the horizon?",
    "Is the seed at least 1?",
    "Is lo at most hi, hi at most 60,000, and are the runs 1 to 10,000?",
    "Is no tick below that of the pair before it?",
    "Are all budgets 0?",
    "Is it a place 0 to 3, empty when putting, filled when taking?",
    "Is the horizon that of the networks present?",
    "Is the airtime in use with this network at most the limit?",
    "Is the horizon at least 1, and at most the table's unless all comes again?",
];

impl Refusal {
    /// All refusals, in the order of their numbers, which start with 1.
    pub const ALL: [Refusal; 29] = [
        Refusal::Version,
        Refusal::Length,
        Refusal::Header,
        Refusal::Layout,
        Refusal::Range,
        Refusal::ChannelTwice,
        Refusal::Passages,
        Refusal::NoEdge,
        Refusal::Update,
        Refusal::SendsMeet,
        Refusal::NoListener,
        Refusal::Crowded,
        Refusal::Lent,
        Refusal::Choices,
        Refusal::SeveralListeners,
        Refusal::ListenerLate,
        Refusal::ListenerShort,
        Refusal::Plan,
        Refusal::Spread,
        Refusal::Offset,
        Refusal::Question,
        Refusal::Seed,
        Refusal::Simulation,
        Refusal::Order,
        Refusal::Budgets,
        Refusal::SitePlace,
        Refusal::Horizon,
        Refusal::Airtime,
        Refusal::RunHorizon,
    ];

    /// Its number, 1 to 29.
    pub fn number(self) -> u8 {
        self as u8
    }
}

impl TryFrom<u8> for Refusal {
    type Error = UnknownNumber;

    fn try_from(number: u8) -> Result<Refusal, UnknownNumber> {
        let place = usize::from(number).wrapping_sub(1);
        let found = Refusal::ALL.get(place).copied();
        found.ok_or(UnknownNumber(number))
    }
}

impl fmt::Display for Refusal {
    fn fmt(&self, out: &mut fmt::Formatter<'_>) -> fmt::Result {
        out.pad(QUESTIONS[usize::from(self.number()) - 1])
    }
}

impl Error for Refusal {}

/// A number that nothing of the kind asked for has.
#[derive(Clone, Copy, Debug, PartialEq, Eq)]
pub struct UnknownNumber(
    /// The number.
    pub u8,
);

impl fmt::Display for UnknownNumber {
    fn fmt(&self, out: &mut fmt::Formatter<'_>) -> fmt::Result {
        write!(out, "nothing has the number {}", self.0)
    }
}

impl Error for UnknownNumber {}

/// A refusal of a table or of a call, as the error of the calls that answer
/// with a result. Displayed in one line: as the vectors write the verdict, and
/// then the question.
///
/// ```
/// use timed_network::{passages, Refusal, Verdict};
///
/// let refused = passages(&[]).unwrap_err();
/// assert_eq!((refused.refusal, refused.component), (Refusal::Version, None));
/// let words = "refused 1 255: the answer is no: Is the first byte 1, 2 or 3?";
/// assert_eq!(refused.to_string(), words);
/// assert_eq!(Verdict::from(refused).to_string(), "refused 1 255");
/// ```
#[derive(Clone, Copy, Debug, PartialEq, Eq)]
pub struct Refused {
    /// Which question is answered with no.
    pub refusal: Refusal,
    /// The component that is concerned, if it is a single one.
    pub component: Option<u8>,
}

impl fmt::Display for Refused {
    fn fmt(&self, out: &mut fmt::Formatter<'_>) -> fmt::Result {
        let verdict = Verdict::from(*self);
        write!(out, "{verdict}: the answer is no: {}", self.refusal)
    }
}

impl Error for Refused {}

/// What the library says of a table or of a call.
#[derive(Clone, Copy, Debug, PartialEq, Eq)]
pub enum Verdict {
    /// All checks are passed.
    Accepted,
    /// A check is not passed.
    Refused {
        /// The number of the first check that is not passed; 15 to 17 stand
        /// in the place of 11 (document 02, wish 3).
        number: u8,
        /// The component that it concerns, or [`NO_COMPONENT`].
        component: u8,
    },
}

impl Verdict {
    pub(crate) fn of(number: u8, component: u8) -> Verdict {
        match number {
            0 => Verdict::Accepted,
            number => Verdict::Refused { number, component },
        }
    }

    /// Which question is answered with no: none where all is accepted, nor for
    /// a number, made up elsewhere, that no refusal has.
    ///
    /// ```
    /// use timed_network::{check, Refusal, Verdict};
    ///
    /// assert_eq!(check(&[]).refusal(), Some(Refusal::Version));
    /// assert_eq!(Verdict::Accepted.refusal(), None);
    /// ```
    pub fn refusal(self) -> Option<Refusal> {
        match self {
            Verdict::Accepted => None,
            Verdict::Refused { number, .. } => Refusal::try_from(number).ok(),
        }
    }

    /// The verdict as a result, for `?`.
    ///
    /// # Panics
    ///
    /// Where the verdict was made up with a number that no refusal has; the
    /// library gives none.
    ///
    /// ```
    /// use timed_network::{check, Refused};
    ///
    /// fn is_accepted(table: &[u8]) -> Result<(), Refused> {
    ///     check(table).into_result()
    /// }
    /// let words = "refused 1 255: the answer is no: Is the first byte 1, 2 or 3?";
    /// assert_eq!(is_accepted(&[]).unwrap_err().to_string(), words);
    /// ```
    pub fn into_result(self) -> Result<(), Refused> {
        match self {
            Verdict::Accepted => Ok(()),
            Verdict::Refused { number, component } => Err(Refused {
                refusal: Refusal::try_from(number).expect("a refusal has this number"),
                component: Some(component).filter(|component| *component != NO_COMPONENT),
            }),
        }
    }
}

impl From<Refused> for Verdict {
    fn from(refused: Refused) -> Verdict {
        Verdict::Refused {
            number: refused.refusal.number(),
            component: refused.component.unwrap_or(NO_COMPONENT),
        }
    }
}

/// Written as the vectors write it: `accepted`, or `refused N C`.
impl fmt::Display for Verdict {
    fn fmt(&self, out: &mut fmt::Formatter<'_>) -> fmt::Result {
        match self {
            Verdict::Accepted => write!(out, "accepted"),
            Verdict::Refused { number, component } => write!(out, "refused {number} {component}"),
        }
    }
}
