//! Simulated runs: many short ones, runs of many passages, and runs that are mostly
//! ticks at which no node moves.

use crate::clock::{in_turns, Effort};
use crate::report::line;
use crate::sides;
use crate::tables::worked_example;
use comparison::readers::Reader;
use comparison::simulations::Experiment;
use reference::plan::{plan, Slots};
use reference::table::{write_table, Table};
use std::hint::black_box;
use timed_network::MAX_RUNS;

/// A table, and what is tried on it.
type Tried = (&'static str, Table, Experiment);

/// The worked example in as many runs as there may be, and a plan of seven probes whose
/// horizon gives 1,012 passages, with short ticks and with long ones.
pub fn tried() -> [Tried; 3] {
    [
        (
            "the worked example, 10,000 runs, work of 0 to 2 ticks",
            worked_example(1),
            experiment(2, MAX_RUNS),
        ),
        (
            "a plan of seven probes, 46 periods, 10 runs, work of 0 to 1 ticks",
            planned(1, 1, 22),
            experiment(1, 10),
        ),
        (
            "a slow plan of seven probes, 46 periods, 10 runs, work of 0 to 1 ticks",
            planned(50, 20, 1_300),
            experiment(1, 10),
        ),
    ]
}

fn experiment(hi: u32, runs: u32) -> Experiment {
    Experiment {
        lo: 0,
        hi,
        runs,
        seed: None,
    }
}

/// The plan of seven probes up to the end of its 46th period.
fn planned(slot: u32, guard: u32, period: u32) -> Table {
    let slots = Slots {
        probes: 7,
        slot,
        guard,
        period,
    };
    let mut table = plan(&slots).expect("the slots fit");
    table.horizon = 46 * period as u16;
    table
}

/// Times simulations, after all sides have counted the same.
pub fn time(effort: Effort) -> Result<(), String> {
    println!("simulated runs");
    for (name, table, experiment) in tried() {
        demand_agreement(name, &table, &experiment)?;
        let bytes = write_table(&table);
        println!("{name}: {} bytes", bytes.len());
        let bytes = &bytes[..];
        let simulate =
            |reader: Reader| move || (reader.simulate)(black_box(bytes), black_box(&experiment));
        line("simulate", in_turns(effort, sides().map(simulate)));
    }
    Ok(())
}

/// All sides count the same, and do not refuse.
pub fn demand_agreement(name: &str, table: &Table, experiment: &Experiment) -> Result<(), String> {
    let bytes = write_table(table);
    let counted = |side: Reader| (side.simulate)(&bytes, experiment);
    let [library, second, yardstick] = sides().map(counted);
    if library.number == 0 && library == second && library == yardstick {
        Ok(())
    } else {
        Err(format!("simulated runs of {name}: the answers differ"))
    }
}
