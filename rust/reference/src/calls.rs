//! The exported calls over lent buffers, with checks 13, 14, 18, 20 to 25 and 29.
//!
//! "Lent buffers keep their bytes; on success so do those past the result."

use crate::chart;
use crate::checks::{self, met_within, scheduled_within, verdict, verdict_within};
use crate::edge_choice::{self, EdgeChoice, Entry};
use crate::opening::RefusedOpening;
use crate::period::{self, Pair};
use crate::place::{self, Place};
use crate::plan::{self, Slots};
use crate::positions::{self, Question};
use crate::program::{self, program_length, write_program};
use crate::reasons;
use crate::run::{run_apart_into, Outcome, OBSERVATION};
use crate::schedule::{schedule_or_fault, Passage};
use crate::simulation::{self, Simulation, WorkTimes};
use crate::table::{read_table, write_table, Refusal, Table};
use crate::uppaal;

/// "14. Are there at most 1,000,000 choices? Else 14."
pub const MAX_CHOICES: usize = 1_000_000;
/// The numbers that a passage takes in a lent list: its seven fields.
pub const FIELDS: usize = 7;
/// The seventh field of a passage without a message.
pub const NO_MESSAGE: u32 = u32::MAX;

/// Checks 1 to 12: "A table is accepted when 1 to 12 are passed".
pub fn check(table: &[u8]) -> Result<(), Refusal> {
    verdict(table).map(|_| ())
}

/// Document 02, wish 6: "The check now takes a bound G on the spread".
pub fn check_spread(table: &[u8], spread: u32) -> Result<(), Refusal> {
    verdict_within(table, spread).map(|_| ())
}

/// Where checks 4 to 6 stop in a table that one of them refuses.
pub fn refusal_place(table: &[u8]) -> Option<Place> {
    place::refusal_place(table)
}

/// The opening at which checks 7 to 9 stop in a table that one of them refuses.
pub fn refused_opening(table: &[u8]) -> Option<RefusedOpening> {
    let table = read_table(table).ok()?;
    schedule_or_fault(&table).err()
}

/// The largest spread at which a table is accepted; refused as [`check`] refuses.
pub fn largest_spread(table: &[u8]) -> Result<u32, Refusal> {
    let (table, passages) = verdict(table)?;
    let largest = checks::largest_spread(&table, &passages);
    Ok(largest.expect("an accepted table passes at spread 0"))
}

/// The answer of [`meetings_spread`].
#[derive(Clone, Copy, Debug, PartialEq, Eq)]
pub struct Meetings {
    /// What [`check_spread`] says of the table.
    pub table: Result<(), Refusal>,
    /// How many passages are listed, or 13 where the list is too short.
    pub listed: Result<usize, Refusal>,
}

/// Lists which windows met at a spread, [`FIELDS`] numbers a passage: the passage
/// at fault, then those that it meets, where checks 10 to 12 refuse the table.
pub fn meetings_spread(table: &[u8], spread: u32, list: &mut [u32]) -> Meetings {
    let verdict = check_spread(table, spread);
    let listed = match scheduled_within(table, spread) {
        Ok((table, passages)) => write_all(&met_within(&table, &passages, spread), list),
        Err(_) => Ok(0),
    };
    Meetings {
        table: verdict,
        listed,
    }
}

/// Writes passages to the front of a list, if it holds them all.
fn write_all(passages: &[&Passage], list: &mut [u32]) -> Result<usize, Refusal> {
    demand_room(list.len() / FIELDS, passages.len())?;
    for (place, passage) in list.chunks_exact_mut(FIELDS).zip(passages) {
        place.copy_from_slice(&passage.fields(NO_MESSAGE));
    }
    Ok(passages.len())
}

/// Writes the schedule, [`FIELDS`] numbers a passage in the order
/// "component, edge, location, entry, ready, end, message", and gives the
/// count of passages.
pub fn schedule(table: &[u8], list: &mut [u32]) -> Result<usize, Refusal> {
    let (_, passages) = verdict(table)?;
    write_all(&passages.iter().collect::<Vec<_>>(), list)
}

/// Writes the program bytes and gives their count.
pub fn translate(table: &[u8], bytes: &mut [u8]) -> Result<usize, Refusal> {
    let (table, _) = verdict(table)?;
    let length = program_length(&table);
    demand_room(bytes.len(), length)?;
    write_program(&table, &mut bytes[..length]);
    Ok(length)
}

/// Writes the chart of the schedule and gives the count of its bytes. "A short
/// buffer is 13 as before."
pub fn timing_chart(table: &[u8], bytes: &mut [u8]) -> Result<usize, Refusal> {
    let (table, passages) = verdict(table)?;
    demand_room(bytes.len(), table.components.len() * chart::ROW)?;
    let rows = chart::chart(&table, &passages);
    bytes[..rows.len()].copy_from_slice(&rows);
    Ok(rows.len())
}

/// Writes the table of a plan and gives the count of its bytes. "Refusal 18 is
/// given [...] before 13".
pub fn plan(slots: &Slots, bytes: &mut [u8]) -> Result<usize, Refusal> {
    let table = write_table(&plan::plan(slots)?);
    demand_room(bytes.len(), table.len())?;
    bytes[..table.len()].copy_from_slice(&table);
    Ok(table.len())
}

/// The edge that a component takes at an entry, and how many edges were looked
/// at, for a table that passes checks 1 to 6.
pub fn edge_choice(table: &[u8], component: u8, entry: &Entry) -> Result<EdgeChoice, Refusal> {
    let table = read_table(table)?;
    Ok(edge_choice::edge_choice(&table, component, entry))
}

/// The bytes that an edge takes in a lent answer: its number, the number of its
/// reason, and the data bound or 255.
pub const REASON: usize = 3;

/// The passage of a component at a tick and how many edges are told.
#[derive(Clone, Copy, Debug, PartialEq, Eq)]
pub struct Told {
    /// The place of the passage in the schedule.
    pub passage: usize,
    /// How many edges are told.
    pub size: usize,
}

/// Writes why a component takes the edge that it takes at a tick, [`REASON`] bytes
/// an edge. "An absent component or a tick from H on is refused with 21, after 12",
/// and a short buffer with 13 after that.
pub fn reasons(table: &[u8], component: u32, tick: u32, bytes: &mut [u8]) -> Result<Told, Refusal> {
    let (table, passages) = verdict(table)?;
    reasons_of(&table, &passages, component, tick, bytes)
}

/// The same for an accepted table that was read, with its schedule.
pub fn reasons_of(
    table: &Table,
    passages: &[Passage],
    component: u32,
    tick: u32,
    bytes: &mut [u8],
) -> Result<Told, Refusal> {
    let reasons = reasons::reasons(table, passages, component, tick)?;
    demand_room(bytes.len() / REASON, reasons.edges.len())?;
    for (place, (edge, reason)) in bytes.chunks_exact_mut(REASON).zip(&reasons.edges) {
        let [reason, bound] = reason.bytes();
        place.copy_from_slice(&[*edge, reason, bound]);
    }
    Ok(Told {
        passage: reasons.passage,
        size: reasons.edges.len(),
    })
}

/// The bytes of a pair's answer: "3 bytes each".
pub const POSITION: usize = 3;

/// Writes where components are at ticks, [`POSITION`] bytes a pair, and gives the number
/// of passages read. The pairs are lent as numbers, a component and its tick in turn; a
/// number left over at the end is none. 21 and 24 are given for the first bad pair.
/// "After them, 13 counts 3 bytes a pair."
pub fn positions(table: &[u8], numbers: &[u32], bytes: &mut [u8]) -> Result<usize, Refusal> {
    let (table, passages) = verdict(table)?;
    positions_of(&table, &passages, numbers, bytes)
}

/// The same for an accepted table that was read, with its schedule.
pub fn positions_of(
    table: &Table,
    passages: &[Passage],
    numbers: &[u32],
    bytes: &mut [u8],
) -> Result<usize, Refusal> {
    let pair = |numbers: &[u32]| Question {
        component: numbers[0],
        tick: numbers[1],
    };
    let pairs: Vec<Question> = numbers.chunks_exact(2).map(pair).collect();
    let positions = positions::positions(table, passages, &pairs)?;
    demand_room(bytes.len() / POSITION, pairs.len())?;
    for (place, answer) in bytes.chunks_exact_mut(POSITION).zip(&positions.answers) {
        place.copy_from_slice(&answer.bytes());
    }
    Ok(positions.read)
}

/// Simulated runs of a table: "the generator starts from its fixed seed 2463534242
/// unless one is given". "After the table's checks, seed 0 is refused with 22, and lo
/// above hi, hi above 60,000 or runs outside 1 to 10,000 with 23."
pub fn simulate(
    table: &[u8],
    work: WorkTimes,
    runs: u32,
    seed: Option<u32>,
) -> Result<Simulation, Refusal> {
    let (table, passages) = verdict(table)?;
    simulation::simulate(&table, &passages, work, runs, seed)
}

/// Writes the network of a table as a text for UPPAAL and gives the count of its bytes.
/// "Tables with budgets are exported without them only if all are 0; any other is
/// refused with 25 before 13."
pub fn uppaal(table: &[u8], bytes: &mut [u8]) -> Result<usize, Refusal> {
    let (table, _) = verdict(table)?;
    if uppaal::has_budgets(&table) {
        return Err(Refusal::whole(25));
    }
    let text = uppaal::text(&table);
    demand_room(bytes.len(), text.len())?;
    bytes[..text.len()].copy_from_slice(text.as_bytes());
    Ok(text.len())
}

/// "The part of the program bytes that belongs to one node can be had by its
/// number; a number without a node, or a header or length that runs out of
/// the bytes, gives an empty part."
pub fn part(program: &[u8], node: usize) -> &[u8] {
    program::part_bytes(program, node)
}

/// Runs a table with choices, writes the observations and gives how it ended
/// and their count.
pub fn run(table: &[u8], choices: &[u8], bytes: &mut [u8]) -> Result<(Outcome, usize), Refusal> {
    run_apart(table, choices, 0, &[], bytes)
}

/// The same for nodes that wake apart: "The check now takes a bound G on the
/// spread, the run an offset for each node". An offset that is missing is 0, and
/// those behind the last node's are not looked at. "an offset above G [is refused]
/// with 20 after 14."
pub fn run_apart(
    table: &[u8],
    choices: &[u8],
    spread: u32,
    offsets: &[u32],
    bytes: &mut [u8],
) -> Result<(Outcome, usize), Refusal> {
    let (table, passages) = verdict_within(table, spread)?;
    demand_room(bytes.len() / OBSERVATION, passages.len())?;
    if choices.len() > MAX_CHOICES {
        return Err(Refusal::whole(14));
    }
    let mut own = offsets.iter().take(table.components.len());
    if own.any(|offset| *offset > spread) {
        return Err(Refusal::whole(20));
    }
    let program = program::program(&table);
    let answer = run_apart_into(&table, &passages, &program, choices, offsets, bytes);
    Ok(answer.expect("the program of an accepted table can be opened"))
}

/// The pair of ticks from one to the other of which everything comes again: "The tool
/// reports the first such b in the schedule and the first a for it, or none."
pub fn period(table: &[u8]) -> Result<Option<Pair>, Refusal> {
    let (table, passages) = verdict(table)?;
    Ok(period::pair(&table, &passages))
}

/// Runs a table "to any horizon of four bytes handed to the run"; at spread 0, without
/// offsets.
pub fn run_to(
    table: &[u8],
    choices: &[u8],
    horizon: u32,
    bytes: &mut [u8],
) -> Result<(Outcome, usize), Refusal> {
    let (table, passages) = verdict(table)?;
    period::run_to(&table, &passages, choices, horizon, bytes)
}

/// "13. Does the lent buffer hold the result (the program length, the list's
/// passages, or a run's 32 bytes for each passage)? Else 13." Of a run, by document
/// 02's wish 9, "Check 13 counts 36 bytes per passage".
fn demand_room(room: usize, needed: usize) -> Result<(), Refusal> {
    if needed <= room {
        Ok(())
    } else {
        Err(Refusal::whole(13))
    }
}
