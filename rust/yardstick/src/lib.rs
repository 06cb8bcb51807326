//! Timed cellar networks in safe Rust written for speed: what the library is
//! measured against.
//!
//! The answers are those of the exported calls: a refusal is a number and a
//! component, lent memory keeps what stands past the result, and keeps all of
//! it after a refusal. A [`Yardstick`] holds the buffers that its calls use
//! again and again; no call allocates once they have grown.
//!
//! The module `table` is the table decoded once, `read` decodes it with checks
//! 1 to 6. `opening` finds the edge taken, `schedule` opens and closes passages
//! in one sweep, `meetings` notes on the way which windows meet, `spread` looks at
//! all of them again where nodes wake apart. `translate` writes programs, `part`
//! finds one node's part, `run` carries out choices, `chart` draws the schedule,
//! `plan` writes the table of a plan, `reasons` tells why an edge is taken, `simulation`
//! counts late runs with drawn work times, `positions` tells where components are at
//! ticks, `uppaal` writes the network as a text, `site` sums up airtimes, `period` finds
//! what comes again, and runs to a horizon. `place` and `refused` tell where a table is
//! refused.
#![forbid(unsafe_code)]
#![warn(missing_docs)]

mod chart;
mod meetings;
mod opening;
mod part;
mod period;
mod place;
mod plan;
mod positions;
mod read;
mod reasons;
mod refused;
mod run;
mod schedule;
mod simulation;
mod site;
mod spread;
mod table;
mod translate;
mod uppaal;

pub use part::part;
pub use period::Pair;
pub use place::Place;
pub use plan::plan;
pub use positions::POSITION;
pub use reasons::{Told, REASON};
pub use refused::RefusedOpening;
pub use simulation::{Simulation, MAX_RUNS, MAX_WORK, SEED};
pub use site::{Network, Site};

use run::Machine;
use schedule::Schedule;
use table::Table;

/// The numbers that a passage takes in a list: component, edge, location,
/// entry, ready, end, message.
pub const FIELDS: usize = 7;
/// The message of a passage that has none.
pub const NO_MESSAGE: u8 = 255;
/// The component of a refusal that concerns none, and the node of a run in
/// which none was late.
pub const NONE: u8 = 255;
/// The bytes of an observation.
pub const OBSERVATION: usize = 36;
/// The finish tick in the first observation of a node.
pub const NO_WORK: u32 = u32::MAX;
/// "Are there at most 1,000,000 choices?"
pub const MAX_CHOICES: usize = 1_000_000;
/// "A G above 1,000 is refused with 19 after 3".
pub const MAX_SPREAD: u32 = 1000;

/// Why a table or a call is refused.
#[derive(Clone, Copy, Debug, PartialEq, Eq)]
pub struct Refusal {
    /// The number of the check that is not passed: 1 to 12 or 15
    /// to 17, 13, 14, or 18 to 29.
    pub number: u8,
    /// The component concerned, or [`NONE`].
    pub component: u8,
}

impl Refusal {
    /// A refusal that names a component.
    pub(crate) const fn of(number: u8, component: usize) -> Refusal {
        let component = component as u8;
        Refusal { number, component }
    }

    /// A refusal that concerns no component.
    pub(crate) const fn whole(number: u8) -> Refusal {
        let component = NONE;
        Refusal { number, component }
    }
}

/// How a run ended, each way with its number.
#[derive(Clone, Copy, Debug, PartialEq, Eq)]
#[repr(u8)]
pub enum End {
    /// "0 horizon (tick H; later choices are ignored)".
    Horizon = 0,
    /// "1 choices used up".
    UsedUp = 1,
    /// "2 late (lowest node)".
    Late = 2,
    /// "3 choice not allowed (that choice does nothing and isn't counted)".
    NotAllowed = 3,
}

/// What a run came to.
#[derive(Clone, Copy, Debug, PartialEq, Eq)]
pub struct Run {
    /// How it ended.
    pub end: End,
    /// The lowest late node, or [`NONE`].
    pub node: u8,
    /// The ticks that have passed.
    pub tick: u32,
    /// The choices carried out, ticks included.
    pub used: u64,
    /// The observations written.
    pub size: usize,
}

/// What [`Yardstick::meetings_spread`] says.
#[derive(Clone, Copy, Debug, PartialEq, Eq)]
pub struct Meetings {
    /// The verdict on the table at the spread.
    pub table: Result<(), Refusal>,
    /// How many passages are listed, or 13 where the list is too short.
    pub listed: Result<usize, Refusal>,
}

/// The buffers of the calls.
#[derive(Default)]
pub struct Yardstick {
    table: Table,
    schedule: Schedule,
    windows: Vec<spread::Window>,
    joints: period::Joints,
    machine: Machine,
    export: uppaal::Export,
}

impl Yardstick {
    /// Buffers that have not been used yet.
    pub fn new() -> Yardstick {
        Yardstick::default()
    }

    /// Checks 1 to 12.
    ///
    /// ```
    /// use yardstick::{Refusal, Yardstick};
    ///
    /// let (number, component) = (1, 255);
    /// let refused = Refusal { number, component };
    /// assert_eq!(Yardstick::new().check(&[]), Err(refused));
    /// ```
    pub fn check(&mut self, bytes: &[u8]) -> Result<(), Refusal> {
        read::read(bytes, &mut self.table)?;
        self.schedule.fill(&mut self.table, bytes)
    }

    /// Where checks 4 to 6 stop, if one of them refuses the table.
    pub fn refusal_place(&mut self, bytes: &[u8]) -> Option<Place> {
        let (channels, rest) = read::header(bytes, &mut self.table).ok()?;
        let first = bytes.len() - rest.len();
        place::locate(bytes, &self.table, channels, first)
    }

    /// Where checks 7 to 9 stop, if one of them refuses the table.
    pub fn refused_opening(&mut self, bytes: &[u8]) -> Option<RefusedOpening> {
        read::read(bytes, &mut self.table).ok()?;
        let refusal = self.schedule.fill(&mut self.table, bytes).err()?;
        let passages = self.schedule.passages().len();
        let stop = &self.schedule.stop;
        let opened = matches!(refusal.number, 7..=9);
        opened.then(|| refused::opening(&self.table, bytes, stop, refusal, passages))
    }

    /// Checks 1 to 12 with a bound on the spread of the nodes' wakings.
    pub fn check_spread(&mut self, bytes: &[u8], spread: u32) -> Result<(), Refusal> {
        if spread == 0 {
            return self.check(bytes);
        }
        let read = read::read(bytes, &mut self.table);
        match read {
            Err(refusal) if refusal.number <= 3 => return Err(refusal),
            _ if spread > MAX_SPREAD => return Err(Refusal::whole(19)),
            _ => read?,
        }
        match self.schedule.fill(&mut self.table, bytes) {
            Err(refusal) if refusal.number < 10 => return Err(refusal),
            _ => {}
        }
        match self.first_at_fault(spread) {
            Some((place, number)) => {
                let at_fault = &self.schedule.passages()[place];
                Err(Refusal::of(number, at_fault.component.into()))
            }
            None => Ok(()),
        }
    }

    /// The place of the first passage at fault of the table that was read last, and
    /// the number of the check.
    fn first_at_fault(&mut self, spread: u32) -> Option<(usize, u8)> {
        let passages = self.schedule.passages();
        spread::fill(&mut self.windows, &self.table, passages);
        spread::first_at_fault(&mut self.windows, passages, spread)
    }

    /// The largest spread at which a table is accepted.
    pub fn largest_spread(&mut self, bytes: &[u8]) -> Result<u32, Refusal> {
        self.check(bytes)?;
        let passages = self.schedule.passages();
        spread::fill(&mut self.windows, &self.table, passages);
        Ok(spread::largest(&self.windows, passages))
    }

    /// Lists the passage at fault and those that it meets, [`FIELDS`] numbers a
    /// passage, where checks 10 to 12 refuse a table at a spread.
    pub fn meetings_spread(&mut self, bytes: &[u8], spread: u32, list: &mut [u32]) -> Meetings {
        let table = self.check_spread(bytes, spread);
        let listed = match table {
            Err(refusal) if (10..=17).contains(&refusal.number) => self.list_met(spread, list),
            _ => Ok(0),
        };
        Meetings { table, listed }
    }

    /// The same for the table that was read last.
    fn list_met(&mut self, spread: u32, list: &mut [u32]) -> Result<usize, Refusal> {
        let Some(fault) = self.first_at_fault(spread) else {
            return Ok(0);
        };
        let passages = self.schedule.passages();
        let met = || spread::met(&self.windows, passages, spread, fault);
        let size = 1 + met().count();
        demand_room(list.len() / FIELDS, size)?;
        let all = passages[fault.0..].iter().take(1).chain(met());
        for (numbers, passage) in list.chunks_exact_mut(FIELDS).zip(all) {
            numbers.copy_from_slice(&passage.fields());
        }
        Ok(size)
    }

    /// Writes the schedule of a table, [`FIELDS`] numbers a passage, and gives
    /// the count of passages.
    pub fn schedule(&mut self, bytes: &[u8], list: &mut [u32]) -> Result<usize, Refusal> {
        self.check(bytes)?;
        let passages = self.schedule.passages();
        demand_room(list.len() / FIELDS, passages.len())?;
        for (numbers, passage) in list.chunks_exact_mut(FIELDS).zip(passages) {
            numbers.copy_from_slice(&passage.fields());
        }
        Ok(passages.len())
    }

    /// Writes the program bytes of a table and gives their count.
    pub fn translate(&mut self, bytes: &[u8], program: &mut [u8]) -> Result<usize, Refusal> {
        self.check(bytes)?;
        let length = translate::length(&self.table);
        demand_room(program.len(), length)?;
        translate::write(&self.table, bytes, &mut program[..length]);
        Ok(length)
    }

    /// Writes the chart of a table's schedule and gives the count of its
    /// bytes.
    pub fn timing_chart(&mut self, bytes: &[u8], rows: &mut [u8]) -> Result<usize, Refusal> {
        self.check(bytes)?;
        let length = self.table.count * chart::ROW;
        demand_room(rows.len(), length)?;
        chart::write(&self.table, self.schedule.passages(), &mut rows[..length]);
        Ok(length)
    }

    /// Writes why a component takes its edge at a tick, [`REASON`] bytes for each edge
    /// from the location of the passage that it is in.
    pub fn reasons(
        &mut self,
        bytes: &[u8],
        component: u32,
        tick: u32,
        told: &mut [u8],
    ) -> Result<Told, Refusal> {
        self.check(bytes)?;
        let number = component as usize;
        if number >= self.table.count || tick >= self.table.horizon {
            return Err(Refusal::whole(21));
        }
        let component = self.table.component(number);
        let passages = self.schedule.passages();
        let visit = reasons::visit(component, bytes, passages, (number, tick));
        let size = visit.edges(component).count_ones() as usize;
        demand_room(told.len() / REASON, size)?;
        visit.write(component, bytes, told);
        let passage = visit.row as u32;
        Ok(Told { passage, size })
    }

    /// Runs the programs of a table's nodes under choices, writes their
    /// observations and says how that ended.
    pub fn run(
        &mut self,
        bytes: &[u8],
        choices: &[u8],
        observations: &mut [u8],
    ) -> Result<Run, Refusal> {
        self.run_apart(bytes, choices, 0, &[], observations)
    }

    /// The same for nodes that wake apart: a bound on the spread, and an offset
    /// for each node, 0 where it is missing.
    pub fn run_apart(
        &mut self,
        bytes: &[u8],
        choices: &[u8],
        spread: u32,
        offsets: &[u32],
        observations: &mut [u8],
    ) -> Result<Run, Refusal> {
        self.check_spread(bytes, spread)?;
        let passages = self.schedule.passages().len();
        demand_room(observations.len() / OBSERVATION, passages)?;
        if choices.len() > MAX_CHOICES {
            return Err(Refusal::whole(14));
        }
        let mut own = offsets.iter().take(self.table.count);
        if own.any(|offset| *offset > spread) {
            return Err(Refusal::whole(20));
        }
        let network = run::Network {
            table: &self.table,
            bytes,
            schedule: &self.schedule,
        };
        self.machine.start(&network, offsets);
        Ok(self.machine.run(&network, choices, observations))
    }
}

/// "13. Does the lent buffer hold the result [...]? Else 13."
fn demand_room(room: usize, needed: usize) -> Result<(), Refusal> {
    if needed <= room {
        Ok(())
    } else {
        Err(Refusal::whole(13))
    }
}
