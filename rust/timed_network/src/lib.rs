//! Safe calls of the library that the Rattle crates export.
//!
//! [`check`] answers checks 1 to 12 of document 01, [`schedule`] writes the
//! schedule of an accepted table into a lent list of numbers,
//! [`schedule_into`] into a lent list of passages, [`passages`] gives it as a
//! list of its own, and [`timing_chart`] draws it. [`meetings`] tells which
//! windows met where checks 10 to 12 refuse a table, [`refusal_place`] at which
//! byte checks 4 to 6 stop, [`refused_opening`] at which opening of a passage
//! checks 7 to 9 do, [`edge_choice`] which edge a component takes at an
//! entry, [`reasons`] why it takes the one that it takes at a tick, [`positions`] where
//! components are at many ticks. [`plan`] writes the table of a cellar in which
//! each probe has a slot of its own. [`translate`] writes the
//! program of an accepted table, [`program`] gives it as bytes of its own,
//! [`part`] finds one node's part in it, [`run`] carries out choices and writes
//! observations, which an [`Observation`] reads. For nodes
//! that wake apart there are [`check_spread`], [`largest_spread`],
//! [`meetings_spread`] and [`run_apart`]. [`simulate`] counts the late ones of runs
//! whose work times are drawn. [`uppaal`] writes the network of a table as a text for
//! UPPAAL. [`period`] tells from when to when everything comes again, and [`run_to`]
//! runs a table to any horizon. [`airtime`] sums up a table's send windows, and a [`Site`]
//! keeps up to four networks under one limit. [`node`] has one node whose registers
//! the caller lends. The declarations of the library stand in ten private
//! modules; each call gets its safe form.
//!
//! Every slice may be lent: an empty one, one of any length (a slice never
//! has more than `isize::MAX` bytes), one that starts anywhere. What a call
//! asks of a C caller, a slice has by itself: pointer and length belong
//! together, a list of `u32` is aligned, and a slice that is lent to be
//! changed overlaps no other.
#![deny(unsafe_code)]
#![warn(missing_docs)]

mod exported;
pub mod node;
mod observation;
mod period;
mod places;
mod positions;
mod reasons;
mod refusal;
mod running;
mod simulation;
mod site;
mod spread;
mod uppaal;

pub use exported::{Entry, Passage, RunNumbers};
pub use observation::{Observation, NO_WORK, OBSERVATION};
pub use period::{period, run_to, run_to_numbers, Pair, RunToNumbers};
pub use places::{refusal_place, refused_opening, Part, Place, RefusedOpening};
pub use positions::{positions, positions_of_numbers, Position, Positioned, Positions, POSITION};
pub use reasons::{reasons, reasons_into, Reason, Reasons, Told, REASON, REASONS_ENOUGH};
pub use refusal::{Refusal, Refused, UnknownNumber, Verdict, NO_COMPONENT};
pub use running::{
    part, program, run, run_numbers, translate, End, Run, MAX_CHOICES, MAX_PROGRAM, NO_NODE, TICK,
};
pub use simulation::{
    simulate, simulate_numbers, Simulation, SimulationNumbers, MAX_RUNS, MAX_WORK, SEED,
};
pub use site::{airtime, Network, Site, SiteNumbers, PLACES};
pub use spread::{
    check_spread, largest_spread, meetings_spread, run_apart, run_apart_numbers, MAX_SPREAD,
};
pub use uppaal::{uppaal, uppaal_into, UPPAAL_ENOUGH};

/// The numbers that a passage takes in a list: component, edge, location,
/// entry, ready, end, message.
pub const FIELDS: usize = 7;
/// The most passages that a schedule has.
pub const MAX_PASSAGES: usize = 1024;
/// The seventh number of a passage without a message.
pub const NO_MESSAGE: u32 = 255;
/// The bytes of a chart's row: `C`, the component's digit, a colon, a space, 64
/// cells and a line feed.
pub const CHART_ROW: usize = 69;

/// The most ticks that the budget of an edge has.
pub const MAX_BUDGET: u16 = 60_000;

/// The most bytes that the table of a plan has.
pub const MAX_PLAN: usize = 414;

/// The answer of a call that writes a schedule, a chart, a program, a plan or a text.
#[derive(Clone, Copy, Debug, PartialEq, Eq)]
pub struct Call {
    /// Checks 1 to 12, or 18 for a plan, and 25 for a text, then 13 where too little is
    /// lent.
    pub verdict: Verdict,
    /// How many passages, or bytes of a chart, a program, a table or a text, were
    /// written; 0 after a refusal.
    pub size: usize,
}

impl Call {
    fn of(answer: &exported::CallNumbers) -> Call {
        Call {
            verdict: Verdict::of(answer.number, answer.component),
            size: answer.size as usize,
        }
    }

    /// The size as a result, for `?`.
    ///
    /// # Panics
    ///
    /// As [`Verdict::into_result`] does.
    ///
    /// ```
    /// use timed_network::{plan, Refused, Slots, MAX_PLAN};
    ///
    /// fn table(slots: Slots) -> Result<Vec<u8>, Refused> {
    ///     let mut bytes = vec![0; MAX_PLAN];
    ///     let size = plan(slots, &mut bytes).into_result()?;
    ///     bytes.truncate(size);
    ///     Ok(bytes)
    /// }
    /// let [probes, slot, guard, period] = [6, 40, 5, 500];
    /// let slots = Slots { probes, slot, guard, period };
    /// assert_eq!(table(slots).map(|bytes| bytes.len()), Ok(29 + 55 * 6));
    /// assert!(table(Slots { probes: 8, ..slots }).is_err());
    /// ```
    pub fn into_result(self) -> Result<usize, Refused> {
        self.verdict.into_result().map(|()| self.size)
    }
}

/// Tries a table.
///
/// ```
/// use timed_network::{check, Verdict};
///
/// let (number, component) = (1, 255);
/// assert_eq!(check(&[]), Verdict::Refused { number, component });
/// ```
pub fn check(table: &[u8]) -> Verdict {
    let answer = exported::check(table);
    Verdict::of(answer.number, answer.component)
}

/// Writes the schedule of a table to the front of the list, [`FIELDS`] numbers
/// a passage. What stands past it stays; after a refusal the whole list does.
///
/// ```
/// use timed_network::{schedule, Verdict};
///
/// let mut list = [7; 14];
/// let call = schedule(&[], &mut list);
/// let (number, component) = (1, 255);
/// assert_eq!(call.verdict, Verdict::Refused { number, component });
/// assert_eq!((call.size, list), (0, [7; 14]));
/// ```
pub fn schedule(table: &[u8], list: &mut [u32]) -> Call {
    Call::of(&exported::schedule(table, list))
}

/// The answer of [`meetings`] and [`meetings_spread`].
#[derive(Clone, Copy, Debug, PartialEq, Eq)]
pub struct Meetings {
    /// The checks of the table, whatever is lent.
    pub table: Verdict,
    /// The call's own answer: accepted, or 13 where the list is too short.
    pub verdict: Verdict,
    /// How many passages are listed.
    pub size: usize,
}

impl Meetings {
    fn of(answer: &exported::MeetingsNumbers) -> Meetings {
        Meetings {
            table: Verdict::of(answer.refusal, answer.concerned),
            verdict: Verdict::of(answer.number, answer.component),
            size: answer.size as usize,
        }
    }
}

/// Lists which windows met: for a table that checks 10 to 12 refuse (with 10,
/// 11, 12 or 15 to 17) the passage at fault, then those that it meets,
/// [`FIELDS`] numbers a passage, at the front of the list; for any other table
/// nothing. What stands past it stays;
/// after 13 the whole list does. A list for [`MAX_PASSAGES`] and one more is
/// never too short.
///
/// ```
/// use timed_network::{meetings, Verdict};
///
/// let answer = meetings(&[], &mut []);
/// let (number, component) = (1, 255);
/// assert_eq!(answer.table, Verdict::Refused { number, component });
/// assert_eq!((answer.verdict, answer.size), (Verdict::Accepted, 0));
/// ```
pub fn meetings(table: &[u8], list: &mut [u32]) -> Meetings {
    Meetings::of(&exported::meetings(table, list))
}

/// Writes the schedule of a table to the front of a list of passages. What
/// stands past it stays; after a refusal the whole list does.
///
/// ```
/// use timed_network::{schedule_into, Passage, Verdict};
///
/// let mut list = [Passage::default(); 2];
/// let call = schedule_into(&[], &mut list);
/// let (number, component) = (1, 255);
/// assert_eq!(call.verdict, Verdict::Refused { number, component });
/// assert_eq!((call.size, list), (0, [Passage::default(); 2]));
/// ```
pub fn schedule_into(table: &[u8], list: &mut [Passage]) -> Call {
    Call::of(&exported::passages(table, list))
}

/// Draws the schedule of a table: one row of [`CHART_ROW`] bytes a component at
/// the front of the bytes lent. Cell i of 64 covers the ticks from i x H / 64 up
/// to, but not including, (i + 1) x H / 64, both rounded down. It shows `S` if a
/// send window of the component has a tick there, else `R` for receive, else
/// `W` for internal, else a dot; a cell without ticks is a space. What stands
/// past the rows stays; after a refusal all bytes do. Eight rows always suffice.
///
/// ```
/// use timed_network::{timing_chart, Verdict, CHART_ROW};
///
/// let mut chart = [7; CHART_ROW];
/// let call = timing_chart(&[], &mut chart);
/// let (number, component) = (1, 255);
/// assert_eq!(call.verdict, Verdict::Refused { number, component });
/// assert_eq!((call.size, chart), (0, [7; CHART_ROW]));
/// ```
pub fn timing_chart(table: &[u8], chart: &mut [u8]) -> Call {
    Call::of(&exported::timing_chart(table, chart))
}

/// What a plan is made from: a cellar with one hub and so many probes.
#[derive(Clone, Copy, Debug, PartialEq, Eq)]
pub struct Slots {
    /// The probes, 1 to 7.
    pub probes: u32,
    /// The ticks from the first to the last at which a probe may send, 1 to
    /// 1,000.
    pub slot: u32,
    /// The ticks that the hub listens longer on both sides, 1 to 1,000.
    pub guard: u32,
    /// The ticks after which all begin anew, at most 30,000.
    pub period: u32,
}

/// Writes the table of a plan to the front of the bytes lent, 29 + 55 x probes
/// of them: the probes are components 0 upward, the hub is the last one, and
/// the horizon is two periods. Every table written is accepted. What stands past
/// it stays; after a refusal all bytes do. Refused with 18 where a number is
/// outside its range, or where probes x (slot + 2 x guard) is not below the
/// period; then with 13 where too little is lent. [`MAX_PLAN`] bytes always
/// suffice.
///
/// ```
/// use timed_network::{check, plan, Call, Slots, Verdict, MAX_PLAN};
///
/// let slots = Slots {
///     probes: 6,
///     slot: 40,
///     guard: 5,
///     period: 500,
/// };
/// let mut table = [0; MAX_PLAN];
/// let Call { verdict, size } = plan(slots, &mut table);
/// assert_eq!((verdict, size), (Verdict::Accepted, 29 + 55 * 6));
/// assert_eq!(check(&table[..size]), Verdict::Accepted);
/// ```
pub fn plan(slots: Slots, table: &mut [u8]) -> Call {
    let numbers = [slots.probes, slots.slot, slots.guard, slots.period];
    Call::of(&exported::plan(numbers, table))
}

/// An edge that is taken, with its window: its first and its last tick, counted
/// from the entry.
#[derive(Clone, Copy, Debug, PartialEq, Eq)]
pub struct TakenEdge {
    /// The number of the edge.
    pub edge: u8,
    /// The ticks from the entry to ready.
    pub ready: u32,
    /// The ticks from the entry to end.
    pub end: u32,
}

/// The answer of [`edge_choice`].
#[derive(Clone, Copy, Debug, PartialEq, Eq)]
pub struct EdgeChoice {
    /// The edge taken, or nothing where no edge is a candidate.
    pub taken: Option<TakenEdge>,
    /// How many edges were looked at: k + 1 where k is the lowest edge that is
    /// a candidate and ready with no delay, all of the component's edges where
    /// there is none.
    pub looked: u32,
}

/// The edge that a component takes as it enters a location, and how many edges
/// were looked at for it. The table has to pass checks 1 to 6 alone. A
/// component that the table does not have has no edges; no edge leaves a
/// location that the component does not have.
///
/// ```
/// use timed_network::{edge_choice, Entry, Refusal};
///
/// let refused = edge_choice(&[], &Entry::default()).unwrap_err();
/// assert_eq!(refused.refusal, Refusal::Version);
/// ```
pub fn edge_choice(table: &[u8], entry: &Entry) -> Result<EdgeChoice, Refused> {
    let answer = exported::edge_choice(table, *entry);
    Verdict::of(answer.number, answer.component).into_result()?;
    let taken = TakenEdge {
        edge: answer.edge,
        ready: answer.ready,
        end: answer.end,
    };
    Ok(EdgeChoice {
        taken: answer.taken.then_some(taken),
        looked: answer.looked,
    })
}

/// The schedule of a table, or why there is none.
///
/// ```
/// use timed_network::{passages, Refusal};
///
/// let refused = passages(&[]).unwrap_err();
/// assert_eq!(refused.refusal, Refusal::Version);
/// ```
pub fn passages(table: &[u8]) -> Result<Vec<[u32; FIELDS]>, Refused> {
    let mut list = vec![0; FIELDS * MAX_PASSAGES];
    let size = schedule(table, &mut list).into_result()?;
    Ok(rows(&list[..FIELDS * size]))
}

/// The numbers of a list, passage by passage.
fn rows(list: &[u32]) -> Vec<[u32; FIELDS]> {
    let row = |numbers: &[u32]| {
        let mut row = [0; FIELDS];
        row.copy_from_slice(numbers);
        row
    };
    list.chunks_exact(FIELDS).map(row).collect()
}
