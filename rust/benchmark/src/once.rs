//! Each call of the library once on each table of the benchmark, in a fixed order:
//! `tools/instructions` has what each of them takes counted.

use crate::apart::{self, OFFSETS, SPREAD};
use crate::tables::{apart_rows, rows, slow_rows, Row};
use crate::{
    choices_to_the_horizon, export, last_node, period as long, positions, reasons, refused,
    simulation, site, PLAN,
};
use comparison::runs::AMPLE;
use reference::table::write_table;
use std::hint::black_box;
use std::thread::Builder;
use timed_network::node::Node;
use timed_network::*;

/// The stack of the calls. That of a thread begins at the same place of a page
/// wherever the program stands and whatever its environment is.
const STACK: usize = 1 << 20;

/// Makes the calls. Each is told in a line, the table and the call, and nothing else
/// calls the library.
pub fn make() -> Result<(), String> {
    let calls = Builder::new().stack_size(STACK).spawn(all);
    let calls = calls.map_err(|problem| problem.to_string())?;
    calls.join().map_err(|_| "a call failed".to_string())?
}

/// All calls.
fn all() -> Result<(), String> {
    for row in &rows() {
        tell_calls(row);
        tell_run(row)?;
    }
    for row in &slow_rows() {
        tell_run(row)?;
    }
    for row in &apart_rows() {
        tell_apart(row)?;
    }
    let mut table = [0; MAX_PLAN];
    tell("a plan of seven probes", "plan", || plan(PLAN, &mut table));
    tell_reasons();
    tell_positions();
    tell_simulations();
    tell_texts();
    tell_sites();
    tell_periods();
    tell_refused();
    Ok(())
}

/// One call: its line, then the call.
fn tell<T>(table: &str, call: &str, make: impl FnOnce() -> T) -> T {
    println!("{table}\t{call}");
    black_box(make())
}

/// The row's name with its passages: several tables differ in nothing else.
fn named(row: &Row) -> String {
    format!("{}, {} passages", row.name, row.passages)
}

/// The calls on an accepted table other than runs, and those on one node.
fn tell_calls(row: &Row) {
    let (name, table) = (&named(row)[..], &row.table[..]);
    let mut list = vec![0; FIELDS * (MAX_PASSAGES + 1)];
    let mut passages = vec![Passage::default(); MAX_PASSAGES];
    let (mut chart, mut bytes) = (vec![0; 8 * CHART_ROW], vec![0; MAX_PROGRAM]);
    tell(name, "check", || check(table));
    tell(name, "schedule", || schedule(table, &mut list));
    tell(name, "passages", || schedule_into(table, &mut passages));
    tell(name, "timing_chart", || timing_chart(table, &mut chart));
    tell(name, "meetings", || meetings(table, &mut list));
    tell(name, "largest_spread", || largest_spread(table)).ok();
    tell(name, "edge_choice", || {
        edge_choice(table, &Entry::default())
    })
    .ok();
    let size = tell(name, "translate", || translate(table, &mut bytes)).size;
    let program = &bytes[..size];
    let last = last_node(program);
    let part = tell(name, "part of the last node", || part(program, last));
    let mut node = tell(name, "start of a node", || Node::start(part));
    tell(name, "step of a node", || node.step(part, 1, 1));
    tell(name, "take_message", || node.take_message(part, 0));
}

/// The start of a run and a run to the horizon.
fn tell_run(row: &Row) -> Result<(), String> {
    let (name, table) = (&named(row)[..], &row.table[..]);
    let choices = choices_to_the_horizon(row)?;
    let mut bytes = vec![0; AMPLE];
    tell(name, "start of a run", || {
        run_numbers(table, &[], &mut bytes)
    });
    let answer = tell(name, "run", || run_numbers(table, &choices, &mut bytes));
    demand_end(name, answer)
}

/// The calls with a spread, and the run whose nodes wake apart.
fn tell_apart(row: &Row) -> Result<(), String> {
    let (name, table) = (&named(row)[..], &row.table[..]);
    let choices = apart::choices_to_the_horizon(row)?;
    let mut list = vec![0; FIELDS * (MAX_PASSAGES + 1)];
    let mut bytes = vec![0; AMPLE];
    tell(name, "check", || check(table));
    for spread in [0, SPREAD] {
        let call = format!("check_spread at {spread}");
        tell(name, &call, || check_spread(table, spread));
    }
    let meet = || meetings_spread(table, SPREAD, &mut list);
    tell(name, "meetings_spread", meet);
    tell(name, "largest_spread", || largest_spread(table)).ok();
    let mut run = |choices: &[u8]| run_apart_numbers(table, choices, SPREAD, &OFFSETS, &mut bytes);
    tell(name, "start of run_apart", || run(&[]));
    let answer = tell(name, "run_apart", || run(&choices));
    demand_end(name, answer)
}

/// Why an edge is taken, at the last tick.
fn tell_reasons() {
    for (name, table, component) in reasons::asked() {
        let (bytes, tick) = (write_table(&table), u32::from(table.horizon) - 1);
        let mut told = [0; REASONS_ENOUGH];
        let ask = || reasons_into(&bytes, component, tick, &mut told);
        tell(name, "reasons at the last tick", ask);
    }
}

/// Where components are at many ticks.
fn tell_positions() {
    for (name, table, count) in positions::asked() {
        let (bytes, pairs) = (write_table(&table), positions::pairs(&table, count));
        let mut answers = vec![0; POSITION * count];
        let ask = || positions_of_numbers(&bytes, &pairs, &mut answers);
        tell(name, "positions", ask);
    }
}

/// Simulated runs.
fn tell_simulations() {
    for (name, table, experiment) in simulation::tried() {
        let bytes = write_table(&table);
        let work = [experiment.lo, experiment.hi];
        let simulate = || simulate_numbers(&bytes, work, experiment.runs, experiment.seed);
        tell(name, "simulate", simulate);
    }
}

/// Texts for UPPAAL.
fn tell_texts() {
    for (name, table, _) in export::written() {
        let (bytes, mut text) = (write_table(&table), vec![0; UPPAAL_ENOUGH]);
        tell(name, "uppaal", || uppaal_into(&bytes, &mut text));
    }
}

/// Airtimes, and a network put into a site and taken out.
fn tell_sites() {
    for (name, table) in site::tried() {
        tell(name, "airtime", || airtime(&table).is_ok());
        let mut site = tell(name, "site", || Site::new(u32::MAX));
        tell(name, "site_put", || site.put(&table, 3).is_ok());
        tell(name, "site_take", || site.take(3).is_ok());
    }
}

/// What comes again, and runs to a table's own horizon and to ten times that.
fn tell_periods() {
    for long in long::tried() {
        let table = &long.table;
        tell(long.name, "period", || period(table).is_ok());
        for (horizon, choices) in &long.runs {
            let mut observations = vec![0; OBSERVATION * 20_000];
            let call = format!("run_to {horizon}");
            tell(long.name, &call, || {
                run_to_numbers(table, choices, *horizon, &mut observations)
            });
        }
    }
}

/// A run has to come to the horizon, or another one is counted than the row's.
fn demand_end(name: &str, answer: RunNumbers) -> Result<(), String> {
    if (answer.number, answer.end) == (0, 0) {
        Ok(())
    } else {
        Err(format!("{name}: the run does not end at the horizon"))
    }
}

/// The calls on refused tables. Refusals by 1 to 3 come before everything that a
/// call does, so each call that judges a table is made on the table of 1.
fn tell_refused() {
    for (number, table) in refused::read().iter().chain(&refused::opened()) {
        let name = &format!("refused by {number}")[..];
        tell(name, "check", || check(table));
        match number {
            1 => tell_early(name, table),
            4..=6 => drop(tell(name, "refusal_place", || refusal_place(table))),
            7..=9 => drop(tell(name, "refused_opening", || refused_opening(table))),
            _ => {}
        }
    }
}

/// Every other call that judges a table, on one that is refused at once.
fn tell_early(name: &str, table: &[u8]) {
    tell(name, "check_spread", || check_spread(table, 0));
    tell(name, "largest_spread", || largest_spread(table)).ok();
    tell(name, "schedule", || schedule(table, &mut []));
    tell(name, "passages", || schedule_into(table, &mut []));
    tell(name, "timing_chart", || timing_chart(table, &mut []));
    tell(name, "translate", || translate(table, &mut []));
    tell(name, "run", || run_numbers(table, &[], &mut []));
    let apart = || run_apart_numbers(table, &[], 0, &[], &mut []);
    tell(name, "run_apart", apart);
    tell(name, "meetings", || meetings(table, &mut []));
    let spread = || meetings_spread(table, 0, &mut []);
    tell(name, "meetings_spread", spread);
    tell(name, "edge_choice", || {
        edge_choice(table, &Entry::default())
    })
    .ok();
    tell(name, "reasons", || reasons_into(table, 0, 0, &mut []));
    tell(name, "positions", || {
        positions_of_numbers(table, &[], &mut [])
    });
    tell(name, "simulate", || {
        simulate_numbers(table, [0, 1], 1, None)
    });
    tell(name, "uppaal", || uppaal_into(table, &mut []));
    tell(name, "airtime", || airtime(table).is_ok());
    tell(name, "refusal_place", || refusal_place(table));
    tell(name, "refused_opening", || refused_opening(table));
}
