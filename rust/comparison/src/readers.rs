//! The implementations that are compared, two at a time.

mod apart;
mod last;
mod periods;
mod places;
mod positions;
mod reasons;
mod simulations;
mod sites;

pub use apart::{
    second_check_spread, second_largest_spread, second_meetings, second_meetings_spread,
    second_run_apart,
};
use periods::library_period;
pub use periods::{refused_run_to, second_period, second_run_to};
use places::{library_opening, library_place};
pub use places::{second_opening, second_place, OpeningNumbers, PlaceNumbers, NONE};
pub use positions::second_positions;
pub use reasons::second_reasons;
use simulations::library_simulate;
pub use simulations::{refused_simulation, second_simulate};
use sites::{library_airtime, library_site};
pub use sites::{second_airtime, second_site};

use crate::fast;
use crate::simulations::Experiment;
use crate::sites::Asked;
use reference::run::Outcome;
use reference::table::Refusal;
use reference::{calls, edge_choice, plan};
use timed_network::{
    Call, EdgeChoice, Entry, Meetings, Network, Pair, Positioned, RunNumbers, RunToNumbers,
    SimulationNumbers, SiteNumbers, Slots, TakenEdge, Told, Verdict, FIELDS, NO_MESSAGE, NO_NODE,
};

/// The numbers that `check` answers: 0 where it accepts, then those of the
/// refusals. 15 to 17 stand in the place of 11 (document 02, wish 3).
pub const NUMBERS: [u8; 16] = [0, 1, 2, 3, 4, 5, 6, 7, 8, 9, 10, 11, 12, 15, 16, 17];
/// The refusals of a send that is not heard well: nobody listens, several do,
/// the listener starts too late, it ends too soon.
pub const UNHEARD: [u8; 4] = [11, 15, 16, 17];
/// The refusal of a list or of bytes that are too short.
pub const TOO_SHORT: u8 = 13;
/// The refusal of too many choices.
pub const TOO_MANY: u8 = 14;
/// The refusal of a spread that is too large.
pub const TOO_WIDE: u8 = 19;
/// The refusal of an offset above the spread.
pub const TOO_LATE: u8 = 20;
/// The refusal of a question about a component that there is not, or about a tick from
/// the horizon on.
pub const NO_QUESTION: u8 = 21;
/// The refusal of a simulation whose seed is 0.
pub const NO_SEED: u8 = 22;
/// The refusal of a simulation whose work times or runs are out of range.
pub const NO_SIMULATION: u8 = 23;
/// The refusal of a pair whose tick is below that of the pair before it.
pub const UNSORTED: u8 = 24;
/// The refusal of a text of a table with budgets.
pub const WITH_BUDGETS: u8 = 25;
/// The refusal of a place of a site.
pub const NO_PLACE: u8 = 26;
/// The refusal of a network with another horizon than those present.
pub const OTHER_HORIZON: u8 = 27;
/// The refusal of a network whose airtime is too much for a site.
pub const NO_AIRTIME: u8 = 28;
/// The refusal of a horizon of 0, or of one beyond the table's own without a pair.
pub const NO_HORIZON: u8 = 29;

/// A call that finds one node's part of a program.
pub type Part = for<'a> fn(&'a [u8], u8) -> &'a [u8];
/// A call that writes bytes of a table.
pub type Writes = fn(&[u8], &mut [u8]) -> Call;
/// A call that writes the table of a plan.
pub type Plans = fn(Slots, &mut [u8]) -> Call;
/// A call that runs a table under choices and writes observations.
pub type Run = fn(&[u8], &[u8], &mut [u8]) -> RunNumbers;

/// A call that chooses an edge at an entry.
pub type Chooses = fn(&[u8], &Entry) -> Result<EdgeChoice, Verdict>;
/// A call that tells why an edge is taken.
pub type Reasons = fn(&[u8], u32, u32, &mut [u8]) -> Told;
/// A call that tells where components are at ticks.
pub type Positions = fn(&[u8], &[u32], &mut [u8]) -> Positioned;
/// A call that judges a table at a spread.
pub type ChecksSpread = fn(&[u8], u32) -> Verdict;
/// A call that lists the windows that met at a spread.
pub type ListsMet = fn(&[u8], u32, &mut [u32]) -> Meetings;
/// A call that tells where checks 4 to 6 stop.
pub type Locates = fn(&[u8]) -> Option<PlaceNumbers>;
/// A call that tells where checks 7 to 9 stop.
pub type LocatesOpening = fn(&[u8]) -> Option<OpeningNumbers>;
/// A call that counts late runs with drawn work times.
pub type Simulates = fn(&[u8], &Experiment) -> SimulationNumbers;
/// A call that sums up a table's airtime.
pub type Airtimes = fn(&[u8]) -> Result<Network, Verdict>;
/// Calls of a site with a limit: the empty site, and the site after each of them.
pub type Shares = fn(u32, &[Asked]) -> Vec<SiteNumbers>;
/// A call that tells from when to when everything comes again.
pub type Repeats = fn(&[u8]) -> Result<Option<Pair>, Verdict>;
/// A call that runs a table under choices to a horizon.
pub type RunTo = fn(&[u8], &[u8], u32, &mut [u8]) -> RunToNumbers;
/// A call that runs a table under choices, at a spread, with offsets.
pub type RunApart = fn(&[u8], &[u8], u32, &[u32], &mut [u8]) -> RunNumbers;

/// The calls of an implementation.
#[derive(Clone, Copy)]
pub struct Reader {
    /// What it says of a table.
    pub check: fn(&[u8]) -> Verdict,
    /// What it writes as a table's schedule.
    pub schedule: fn(&[u8], &mut [u32]) -> Call,
    /// What it writes as a table's program.
    pub translate: Writes,
    /// What it writes as a table's chart.
    pub timing_chart: Writes,
    /// What it writes as a table's text for UPPAAL.
    pub uppaal: Writes,
    /// What it writes as the table of a plan.
    pub plan: Plans,
    /// Which edge it takes at an entry, and how many it looks at.
    pub edge_choice: Chooses,
    /// Why it says that an edge is taken at a tick, and writes.
    pub reasons: Reasons,
    /// Where it says that components are at ticks, and writes.
    pub positions: Positions,
    /// What it finds as one node's part of a program.
    pub part: Part,
    /// What it says of a table's run under choices, and writes.
    pub run: Run,
    /// From when to when it says that everything comes again.
    pub period: Repeats,
    /// What it says of a table's run to a horizon, and writes.
    pub run_to: RunTo,
    /// What it says of simulated runs.
    pub simulate: Simulates,
    /// What it says is the airtime of a table.
    pub airtime: Airtimes,
    /// What its sites are after each of several calls.
    pub site: Shares,
    /// Which windows it says have met.
    pub meetings: fn(&[u8], &mut [u32]) -> Meetings,
    /// What it says of a table at a spread.
    pub check_spread: ChecksSpread,
    /// Up to which spread it accepts a table.
    pub largest_spread: fn(&[u8]) -> Result<u32, Verdict>,
    /// Which windows it says have met at a spread.
    pub meetings_spread: ListsMet,
    /// What it says of a run whose nodes wake apart, and writes.
    pub run_apart: RunApart,
    /// Where it says that checks 4 to 6 stop.
    pub refusal_place: Locates,
    /// Where it says that checks 7 to 9 stop.
    pub refused_opening: LocatesOpening,
}

/// The two implementations.
#[derive(Clone, Copy)]
pub struct Readers {
    /// The exported library.
    pub library: Reader,
    /// The second implementation, or another one in its place.
    pub second: Reader,
}

impl Readers {
    /// The library against the second implementation.
    pub fn real() -> Readers {
        let library = Reader {
            check: timed_network::check,
            schedule: timed_network::schedule,
            translate: timed_network::translate,
            timing_chart: timed_network::timing_chart,
            uppaal: timed_network::uppaal_into,
            plan: timed_network::plan,
            edge_choice: |table, entry| {
                timed_network::edge_choice(table, entry).map_err(Verdict::from)
            },
            reasons: timed_network::reasons_into,
            positions: timed_network::positions_of_numbers,
            part: timed_network::part,
            run: timed_network::run_numbers,
            period: library_period,
            run_to: timed_network::run_to_numbers,
            simulate: library_simulate,
            airtime: library_airtime,
            site: library_site,
            meetings: timed_network::meetings,
            check_spread: timed_network::check_spread,
            largest_spread: |table| timed_network::largest_spread(table).map_err(Verdict::from),
            meetings_spread: timed_network::meetings_spread,
            run_apart: timed_network::run_apart_numbers,
            refusal_place: library_place,
            refused_opening: library_opening,
        };
        let second = Reader::second();
        Readers { library, second }
    }

    /// The library against the yardstick of speed.
    pub fn fast() -> Readers {
        Readers {
            second: Reader::yardstick(),
            ..Readers::real()
        }
    }
}

impl Reader {
    /// The second implementation.
    pub fn second() -> Reader {
        Reader {
            check: second_reader,
            schedule: second_schedule,
            translate: second_translate,
            timing_chart: second_chart,
            uppaal: second_uppaal,
            plan: second_plan,
            edge_choice: second_edge_choice,
            reasons: second_reasons,
            positions: second_positions,
            part: second_part,
            run: second_run,
            period: second_period,
            run_to: second_run_to,
            simulate: second_simulate,
            airtime: second_airtime,
            site: second_site,
            meetings: second_meetings,
            check_spread: second_check_spread,
            largest_spread: second_largest_spread,
            meetings_spread: second_meetings_spread,
            run_apart: second_run_apart,
            refusal_place: second_place,
            refused_opening: second_opening,
        }
    }

    /// The yardstick of speed.
    pub fn yardstick() -> Reader {
        fast::READER
    }
}

/// The second implementation's answer for checks 1 to 12.
pub fn second_reader(table: &[u8]) -> Verdict {
    match calls::check(table) {
        Ok(()) => Verdict::Accepted,
        Err(refusal) => verdict(refusal),
    }
}

/// The second implementation's schedule. It has another number for no
/// message, which is replaced by the library's.
pub fn second_schedule(table: &[u8], list: &mut [u32]) -> Call {
    match calls::schedule(table, list) {
        Ok(size) => {
            put_no_message(list, size);
            let verdict = Verdict::Accepted;
            Call { verdict, size }
        }
        Err(refusal) => Call {
            verdict: verdict(refusal),
            size: 0,
        },
    }
}

/// Writes the library's number for no message into so many passages.
fn put_no_message(list: &mut [u32], size: usize) {
    for passage in list.chunks_exact_mut(FIELDS).take(size) {
        let message = &mut passage[FIELDS - 1];
        if *message == calls::NO_MESSAGE {
            *message = NO_MESSAGE;
        }
    }
}

/// The second implementation's program.
pub fn second_translate(table: &[u8], program: &mut [u8]) -> Call {
    written(calls::translate(table, program))
}

/// The second implementation's chart.
pub fn second_chart(table: &[u8], chart: &mut [u8]) -> Call {
    written(calls::timing_chart(table, chart))
}

/// The second implementation's text for UPPAAL.
pub fn second_uppaal(table: &[u8], text: &mut [u8]) -> Call {
    written(calls::uppaal(table, text))
}

/// The second implementation's plan.
pub fn second_plan(slots: Slots, table: &mut [u8]) -> Call {
    let slots = plan::Slots {
        probes: slots.probes,
        slot: slots.slot,
        guard: slots.guard,
        period: slots.period,
    };
    written(calls::plan(&slots, table))
}

/// The second implementation's edge choice.
pub fn second_edge_choice(table: &[u8], entry: &Entry) -> Result<EdgeChoice, Verdict> {
    let own = edge_choice::Entry {
        location: entry.location,
        clocks: entry.clocks,
        variables: entry.values,
    };
    let chosen = calls::edge_choice(table, entry.component, &own).map_err(verdict)?;
    let taken = chosen.taken.map(|(number, window)| TakenEdge {
        edge: number as u8,
        ready: window.ready,
        end: window.end,
    });
    Ok(EdgeChoice {
        taken,
        looked: chosen.looked as u32,
    })
}

fn written(size: Result<usize, Refusal>) -> Call {
    match size {
        Ok(size) => Call {
            verdict: Verdict::Accepted,
            size,
        },
        Err(refusal) => Call {
            verdict: verdict(refusal),
            size: 0,
        },
    }
}

/// The second implementation's part.
pub fn second_part(program: &[u8], node: u8) -> &[u8] {
    calls::part(program, node.into())
}

/// The second implementation's run.
pub fn second_run(table: &[u8], choices: &[u8], observations: &mut [u8]) -> RunNumbers {
    run_numbers(calls::run(table, choices, observations))
}

fn run_numbers(answer: Result<(Outcome, usize), Refusal>) -> RunNumbers {
    match answer {
        Ok((outcome, size)) => RunNumbers {
            number: 0,
            component: 255,
            end: outcome.end as u8,
            node: outcome.node,
            tick: outcome.tick,
            used: outcome.used as u32,
            size: size as u32,
        },
        Err(refusal) => RunNumbers {
            number: refusal.number,
            component: refusal.component,
            end: 0,
            node: NO_NODE,
            tick: 0,
            used: 0,
            size: 0,
        },
    }
}

fn verdict(refusal: Refusal) -> Verdict {
    refused(refusal.number, refusal.component)
}

/// A refusal.
pub const fn refused(number: u8, component: u8) -> Verdict {
    Verdict::Refused { number, component }
}
