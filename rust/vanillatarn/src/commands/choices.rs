//! `vanillatarn choices`: a list of choices for the programs of a table, from the start to the
//! horizon, made by the second implementation.

use crate::input;
use crate::options::Question;
use crate::output::{deliver, Ended, Stop, BROKEN};
use crate::refusals::{name_kind, refuse_with};
use demand::Demand;
use reference::checks::{verdict, verdict_within};
use reference::horizon::{schedule_to, Stay};
use reference::period::reachable;
use reference::schedule::Passage;
use reference::table::{Refusal, Table};
#[cfg(feature = "library")]
use std::ffi::OsStr;

/// The most passages up to a horizon that a list is made for.
const MOST: usize = 2_000_000;

/// How a list is made.
#[derive(Clone, Copy)]
enum Maker {
    Early,
    Late,
    Drawn(u32),
}

impl Maker {
    fn make(self, demand: &Demand, offsets: &[u32]) -> Vec<u8> {
        match self {
            Maker::Early => choices::early(demand, offsets),
            Maker::Late => choices::late(demand, offsets),
            Maker::Drawn(seed) => choices::drawn(demand, offsets, seed),
        }
    }
}

/// What is asked for.
struct Asked<'a> {
    maker: Maker,
    offsets: &'a [u32],
    horizon: Option<u32>,
}

impl<'a> Asked<'a> {
    fn of(asked: &'a Question) -> Result<Asked<'a>, Stop> {
        let maker = match (asked.has("--late"), asked.number("--seed")) {
            (_, Some(0)) => return Err(asked.misused("--seed is at least 1")),
            (_, Some(seed)) => Maker::Drawn(seed),
            (true, None) => Maker::Late,
            (false, None) => Maker::Early,
        };
        Ok(Asked {
            maker,
            offsets: asked.numbers("--offsets").unwrap_or_default(),
            horizon: asked.number("--horizon"),
        })
    }
}

/// Why there is no list.
#[derive(Debug, PartialEq, Eq)]
enum Fault {
    Refused(Refusal),
    /// There are too many passages.
    TooMany(String),
}

impl From<Refusal> for Fault {
    fn from(refusal: Refusal) -> Fault {
        Fault::Refused(refusal)
    }
}

pub fn answer(asked: &Question) -> Ended {
    let file = asked.files[0].as_os_str();
    let input = input::table_of(file)?;
    let about = Asked::of(asked)?;
    match list(input.table(), &about) {
        Ok(list) => deliver(&list, asked.text("-o")),
        Err(Fault::TooMany(words)) => Err(Stop::of_file(file, BROKEN, &words)),
        Err(Fault::Refused(Refusal { number, component })) => {
            name_kind(file, &input, number)?;
            // The table has to be accepted at a spread of the largest offset: a refusal is at it.
            let spread = about.offsets.iter().copied().max().unwrap_or(0);
            let words = format!("refused {number} {component}\n");
            refuse_with(words.as_bytes(), number, file, spread)
        }
    }
}

/// The list for a run that is asked to make it. Of a table that is refused it is empty: the run
/// tells the refusal.
#[cfg(feature = "library")]
pub fn made(asked: &Question, file: &OsStr, table: &[u8]) -> Result<Vec<u8>, Stop> {
    match list(table, &Asked::of(asked)?) {
        Ok(list) => Ok(list),
        Err(Fault::TooMany(words)) => Err(Stop::of_file(file, BROKEN, &words)),
        Err(Fault::Refused(_)) => Ok(Vec::new()),
    }
}

/// The list, or why there is none.
fn list(bytes: &[u8], asked: &Asked) -> Result<Vec<u8>, Fault> {
    let (table, mut passages) = accepted(bytes, asked)?;
    let horizon = asked.horizon.unwrap_or(table.horizon.into());
    if asked.horizon.is_some() {
        let stays = schedule_to(&table, horizon.into(), MOST).ok_or_else(|| {
            let many = format!("more than {MOST} passages up to horizon {horizon}");
            Fault::TooMany(format!("{many}: no list is made"))
        })?;
        passages = stays.iter().map(passage).collect();
    }
    let demand = Demand::to(&table, &passages, horizon);
    Ok(asked.maker.make(&demand, asked.offsets))
}

/// A passage by its ticks from 0 on. One that is ready past the numbers of a tick is as
/// late as there is any: no run comes to it.
fn passage(stay: &Stay) -> Passage {
    let tick = |tick: u64| u32::try_from(tick).unwrap_or(u32::MAX);
    Passage {
        entry: tick(stay.entry),
        ready: tick(stay.ready()),
        end: tick(stay.end()),
        ..stay.passage
    }
}

/// The table and its schedule, if it is accepted at a spread as large as the
/// largest offset of one of its nodes, and can be run to the horizon.
fn accepted(bytes: &[u8], asked: &Asked) -> Result<(Table, Vec<Passage>), Refusal> {
    let (table, passages) = verdict(bytes)?;
    if let Some(horizon) = asked.horizon {
        reachable(&table, &passages, horizon)?;
    }
    let own = asked.offsets.iter().take(table.components.len());
    verdict_within(bytes, own.copied().max().unwrap_or(0))
}

#[cfg(test)]
#[path = "choices/tests.rs"]
mod tests;
