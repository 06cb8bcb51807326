//! Times the exported library beside the second implementation and the
//! yardstick, all in this one run and with the release profile:
//! `benchmark [--quick]`. With `--once` it times nothing: each call is made once, for
//! `tools/instructions`.
#![deny(unsafe_code)]

mod apart;
mod clock;
mod export;
mod once;
mod period;
mod positions;
mod processor;
mod reasons;
mod refused;
mod report;
mod simulation;
mod site;
mod tables;

use clock::{in_turns, Effort};
use comparison::readers::{Reader, Readers};
use comparison::runs::{Subject, AMPLE};
use report::{heading, line, SIDES};
use std::env;
use std::hint::black_box;
use std::process::ExitCode;
use tables::Row;
use timed_network::{Slots, CHART_ROW, FIELDS, MAX_PASSAGES, MAX_PLAN, MAX_PROGRAM};

fn main() -> ExitCode {
    let words: Vec<String> = env::args().skip(1).collect();
    let words: Vec<&str> = words.iter().map(String::as_str).collect();
    if cfg!(debug_assertions) {
        eprintln!("benchmark: build it with --release");
        return ExitCode::from(2);
    }
    let done = match words[..] {
        [] => measure(Effort::FULL),
        ["--quick"] => measure(Effort::QUICK),
        ["--once"] => once::make(),
        _ => {
            eprintln!("usage: benchmark [--quick | --once]");
            return ExitCode::from(2);
        }
    };
    match done {
        Ok(()) => ExitCode::SUCCESS,
        Err(problem) => {
            eprintln!("benchmark: {problem}");
            ExitCode::from(1)
        }
    }
}

/// The library, the second implementation and the yardstick.
fn sides() -> [Reader; SIDES] {
    let Readers { library, second } = Readers::real();
    [library, second, Reader::yardstick()]
}

fn measure(effort: Effort) -> Result<(), String> {
    let Effort { rounds, .. } = effort;
    println!(
        "Processor time in ns a call, least and median of {rounds} rounds. What is lent is the"
    );
    println!(
        "same for all calls of a loop and holds every result. A choice's and a tick's time is"
    );
    println!("that of a run to the horizon without its start, which has the checks.");
    heading();
    for row in &tables::rows() {
        let choices = demand_agreement(row)?;
        title(row);
        time_calls(effort, row);
        time_run(effort, row, &choices, "a choice");
    }
    for row in &tables::slow_rows() {
        let choices = demand_agreement(row)?;
        title(row);
        time_run(effort, row, &choices, "a tick");
    }
    for row in &tables::apart_rows() {
        let choices = apart::demand_agreement(row)?;
        title(row);
        apart::time(effort, row, &choices);
    }
    time_plan(effort)?;
    reasons::time(effort)?;
    positions::time(effort)?;
    simulation::time(effort)?;
    export::time(effort)?;
    site::time(effort)?;
    period::time(effort)?;
    refused::time(effort)
}

/// The row's name and sizes.
fn title(row: &Row) {
    let Row {
        name,
        table,
        nodes,
        passages,
    } = row;
    let bytes = table.len();
    println!("{name}: {bytes} bytes, {nodes} nodes, {passages} passages");
}

/// Choices to the horizon, everything finished as early as it can be.
fn choices_to_the_horizon(row: &Row) -> Result<Vec<u8>, String> {
    let subject = Subject::new(&row.table);
    let subject = subject.ok_or(format!("{}: the table is refused", row.name))?;
    Ok(choices::early(&subject.demand(), &[]))
}

/// All answers of an implementation to a row, and what it writes.
fn answers(reader: &Reader, table: &[u8], choices: &[u8]) -> String {
    let mut list = vec![0; FIELDS * MAX_PASSAGES];
    let mut bytes = vec![0; MAX_PROGRAM];
    let mut observations = vec![0; AMPLE];
    let verdict = (reader.check)(table);
    let scheduled = (reader.schedule)(table, &mut list);
    let translated = (reader.translate)(table, &mut bytes);
    let program = bytes[..translated.size].to_vec();
    let mut chart = vec![0; 8 * CHART_ROW];
    let drawn = (reader.timing_chart)(table, &mut chart);
    let last = (reader.part)(&program, last_node(&program)).to_vec();
    let ran = (reader.run)(table, choices, &mut observations);
    let lent = format!("{list:?} {bytes:?} {chart:?} {observations:?}");
    format!("{verdict} {scheduled:?} {translated:?} {drawn:?} {last:?} {ran:?} {lent}")
}

/// The choices of a row, after all sides have given the same answers.
fn demand_agreement(row: &Row) -> Result<Vec<u8>, String> {
    let choices = choices_to_the_horizon(row)?;
    let [library, second, yardstick] = sides().map(|side| answers(&side, &row.table, &choices));
    if library == second && library == yardstick {
        Ok(choices)
    } else {
        Err(format!("{}: the answers differ", row.name))
    }
}

/// The number of a program's last node.
fn last_node(program: &[u8]) -> u8 {
    program.get(3).map_or(0, |count| count - 1)
}

/// Times check, schedule, chart, translate and part.
fn time_calls(effort: Effort, row: &Row) {
    let table = &row.table[..];
    let check = |reader: Reader| move || (reader.check)(black_box(table));
    line("check", in_turns(effort, sides().map(check)));
    let schedule = |reader: Reader| {
        let mut list = vec![0; FIELDS * MAX_PASSAGES];
        move || (reader.schedule)(black_box(table), &mut list)
    };
    line("schedule", in_turns(effort, sides().map(schedule)));
    let chart = |reader: Reader| {
        let mut chart = vec![0; 8 * CHART_ROW];
        move || (reader.timing_chart)(black_box(table), &mut chart)
    };
    line("chart", in_turns(effort, sides().map(chart)));
    let translate = |reader: Reader| {
        let mut program = vec![0; MAX_PROGRAM];
        move || (reader.translate)(black_box(table), &mut program)
    };
    line("translate", in_turns(effort, sides().map(translate)));
    let mut program = vec![0; MAX_PROGRAM];
    let size = (sides()[0].translate)(table, &mut program).size;
    let program = &program[..size];
    let node = last_node(program);
    let part = |reader: Reader| move || (reader.part)(black_box(program), node).len();
    line("part of the last node", in_turns(effort, sides().map(part)));
}

/// Seven probes, with the longest slots and guards.
const PLAN: Slots = Slots {
    probes: 7,
    slot: 1000,
    guard: 1000,
    period: 30_000,
};

/// Times a plan, after all sides have written the same bytes.
fn time_plan(effort: Effort) -> Result<(), String> {
    let written = sides().map(|side| {
        let mut table = [0; MAX_PLAN];
        ((side.plan)(PLAN, &mut table), table)
    });
    if written[0] != written[1] || written[0] != written[2] {
        return Err("the plans differ".to_string());
    }
    println!("a plan of seven probes: {MAX_PLAN} bytes");
    let plan = |reader: Reader| {
        let mut table = [0; MAX_PLAN];
        move || (reader.plan)(black_box(PLAN), black_box(&mut table))
    };
    line("plan", in_turns(effort, sides().map(plan)));
    Ok(())
}

/// Times the start of a run, a run to the horizon, and each of its choices.
fn time_run(effort: Effort, row: &Row, choices: &[u8], each: &str) {
    let table = &row.table[..];
    let run = |reader: Reader, choices: &'_ [u8]| {
        let (choices, mut bytes) = (choices.to_vec(), vec![0; AMPLE]);
        move || (reader.run)(black_box(table), black_box(&choices), &mut bytes)
    };
    let [library, plain, yardstick] = sides();
    let calls = [
        run(library, &[]),
        run(plain, &[]),
        run(yardstick, &[]),
        run(library, choices),
        run(plain, choices),
        run(yardstick, choices),
    ];
    let [a, b, c, d, e, f] = in_turns(effort, calls);
    let (start, whole) = ([a, b, c], [d, e, f]);
    line("start of a run", start);
    let count = choices.len();
    line(&format!("run, {count} choices"), whole);
    let alone = [d.each(a, count), e.each(b, count), f.each(c, count)];
    line(&format!("  {each} of it"), alone);
}

#[cfg(test)]
mod tests {
    use super::{
        apart, demand_agreement, export, period, positions, reasons, refused, simulation, site,
        tables,
    };

    #[test]
    fn all_sides_agree_on_every_row() {
        let rows = tables::rows();
        let slow = tables::slow_rows();
        assert!(!rows.is_empty() && !slow.is_empty());
        for row in rows.iter().chain(&slow) {
            assert!(!demand_agreement(row).unwrap().is_empty(), "{}", row.name);
        }
        for row in &tables::apart_rows() {
            let choices = apart::demand_agreement(row).unwrap();
            assert!(!choices.is_empty(), "{}", row.name);
        }
        for (name, table, component) in &reasons::asked() {
            let agreed = reasons::demand_agreement(name, table, *component);
            assert_eq!(agreed, Ok(()));
        }
        for (name, table, count) in &positions::asked() {
            let agreed = positions::demand_agreement(name, table, *count);
            assert_eq!(agreed, Ok(()));
        }
        for (name, table, experiment) in &simulation::tried() {
            let agreed = simulation::demand_agreement(name, table, experiment);
            assert_eq!(agreed, Ok(()));
        }
        for (name, table, length) in &export::written() {
            let agreed = export::demand_agreement(name, table, *length);
            assert_eq!(agreed, Ok(()));
        }
        for (name, table) in &site::tried() {
            assert_eq!(site::demand_agreement(name, table), Ok(()));
        }
        let long = period::tried();
        assert_eq!(long.len(), 2);
        for long in &long {
            assert_eq!(period::demand_agreement(long), Ok(()));
        }
        for (number, table) in refused::read().iter().chain(&refused::opened()) {
            assert_eq!(refused::demand_agreement(*number, table), Ok(()));
        }
    }
}
