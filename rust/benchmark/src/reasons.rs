//! Why an edge is taken at the last tick below the horizon: the whole schedule is
//! made, and the passages of the component are gone through to the last.

use crate::clock::{in_turns, Effort};
use crate::report::line;
use crate::sides;
use crate::tables::{hub, with_passages, worked_example};
use comparison::readers::Reader;
use reference::table::{write_table, Table};
use std::hint::black_box;
use timed_network::REASONS_ENOUGH;

/// A table, and the component that is asked about.
type Asked = (&'static str, Table, u32);

/// The worked example, and the hub of seven probes.
pub fn asked() -> [Asked; 2] {
    let seven = with_passages(hub(1), 1024);
    let last = seven.components.len() as u32 - 1;
    [
        ("the worked example, component 1", worked_example(1), 1),
        ("a hub and seven probes, component 7", seven, last),
    ]
}

/// Times the reasons at the last tick, after all sides have told the same.
pub fn time(effort: Effort) -> Result<(), String> {
    println!("reasons at the last tick");
    for (name, table, component) in asked() {
        demand_agreement(name, &table, component)?;
        let bytes = write_table(&table);
        let tick = u32::from(table.horizon) - 1;
        println!("{name}: {} bytes", bytes.len());
        let bytes = &bytes[..];
        let reasons = |reader: Reader| {
            let mut told = [0; REASONS_ENOUGH];
            move || (reader.reasons)(black_box(bytes), component, tick, &mut told)
        };
        line("reasons", in_turns(effort, sides().map(reasons)));
    }
    Ok(())
}

/// All sides tell the same, and do not refuse.
pub fn demand_agreement(name: &str, table: &Table, component: u32) -> Result<(), String> {
    let bytes = write_table(table);
    let tick = u32::from(table.horizon) - 1;
    let told = |side: Reader| {
        let mut told = [0; REASONS_ENOUGH];
        let answer = (side.reasons)(&bytes, component, tick, &mut told);
        (answer, told)
    };
    let [library, second, yardstick] = sides().map(told);
    if library.0.size > 0 && library == second && library == yardstick {
        Ok(())
    } else {
        Err(format!("reasons of {name}: the answers differ"))
    }
}
