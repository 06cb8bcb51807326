//! What comes again beside the check, and runs to ten times a table's own horizon beside
//! those to it.

use crate::clock::{in_turns, Effort};
use crate::report::line;
use crate::sides;
use crate::tables::{hub, rows, with_passages};
use comparison::periods::Far;
use comparison::readers::Reader;
use comparison::runs::Subject;
use reference::table::write_table;
use std::hint::black_box;
use timed_network::OBSERVATION;

/// The most passages up to ten horizons.
const MOST: usize = 20_000;

/// A table, and choices to its own horizon and to ten times that.
pub struct Long {
    /// What it is.
    pub name: &'static str,
    /// Its bytes.
    pub table: Vec<u8>,
    /// Horizon and choices.
    pub runs: [(u32, Vec<u8>); 2],
}

/// A hub and seven probes, and four pairs, as far as they come again.
pub fn tried() -> Vec<Long> {
    let hub = (
        "a hub and seven probes",
        write_table(&with_passages(hub(1), 1024)),
    );
    let pairs = rows().into_iter().filter(|row| row.name == "four pairs");
    let pairs = pairs.take(1).map(|row| ("four pairs", row.table));
    let tables = [hub].into_iter().chain(pairs);
    tables
        .filter_map(|(name, table)| long(name, table))
        .collect()
}

/// The choices, where a table can be run to ten horizons.
fn long(name: &'static str, table: Vec<u8>) -> Option<Long> {
    let subject = Subject::new(&table)?;
    let own = u32::from(subject.table.horizon);
    let choices = |horizon: u32| {
        let far = Far::new(&subject, horizon, MOST)?;
        Some((horizon, choices::early(&far.demand(), &[])))
    };
    let runs = [choices(own)?, choices(10 * own)?];
    Some(Long { name, table, runs })
}

/// Times pairs and runs to a horizon, after all sides have told the same.
pub fn time(effort: Effort) -> Result<(), String> {
    println!("what comes again, and runs to ten horizons");
    for long in &tried() {
        demand_agreement(long)?;
        println!("{}: {} bytes", long.name, long.table.len());
        let table = &long.table[..];
        let checks =
            |reader: Reader| move || (reader.check)(black_box(table)).into_result().is_ok();
        line("check", in_turns(effort, sides().map(checks)));
        let asks = |reader: Reader| move || (reader.period)(black_box(table));
        line("period", in_turns(effort, sides().map(asks)));
        let mut each = Vec::new();
        for (horizon, choices) in &long.runs {
            let run = |reader: Reader| {
                let mut bytes = vec![0; OBSERVATION * MOST];
                move || (reader.run_to)(black_box(table), choices, *horizon, &mut bytes)
            };
            let ran = in_turns(effort, sides().map(run));
            line(&format!("run to {horizon}, {} choices", choices.len()), ran);
            each.push(ran[0].least / choices.len() as f64);
        }
        let times = each[1] / each[0];
        println!("  the library's choice to ten horizons/to its own: {times:.2}");
    }
    Ok(())
}

/// All sides tell the same, find a pair, and come to both horizons.
pub fn demand_agreement(long: &Long) -> Result<(), String> {
    let told = |side: Reader| {
        let runs = long.runs.each_ref().map(|(horizon, choices)| {
            let mut bytes = vec![0; OBSERVATION * MOST];
            let ran = (side.run_to)(&long.table, choices, *horizon, &mut bytes);
            (ran, bytes)
        });
        ((side.period)(&long.table), runs)
    };
    let [library, second, yardstick] = sides().map(told);
    let reached = library
        .1
        .iter()
        .all(|(ran, _)| (ran.number, ran.end) == (0, 0));
    if reached && matches!(library.0, Ok(Some(_))) && library == second && library == yardstick {
        Ok(())
    } else {
        Err(format!(
            "what comes again of {}: the answers differ",
            long.name
        ))
    }
}
