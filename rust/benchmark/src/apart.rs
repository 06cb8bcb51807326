//! Nodes that wake apart: verdicts at a spread, the largest spread, runs with
//! offsets.

use crate::clock::{in_turns, Effort};
use crate::report::line;
use crate::sides;
use crate::tables::Row;
use comparison::readers::Reader;
use comparison::runs::{Subject, AMPLE};
use std::hint::black_box;

/// The spread at which the tables of these rows are accepted, and no greater one.
pub const SPREAD: u32 = 3;
/// The tick at which each node wakes.
pub const OFFSETS: [u32; 8] = [3, 0, 2, 1, 3, 0, 1, 2];

/// Choices to the horizon with these offsets, everything finished as early as it
/// can be.
pub fn choices_to_the_horizon(row: &Row) -> Result<Vec<u8>, String> {
    let subject = Subject::within(&row.table, SPREAD);
    let subject = subject.ok_or(format!("{}: refused at {SPREAD}", row.name))?;
    Ok(choices::early(&subject.demand(), &OFFSETS))
}

/// All answers of an implementation to a row, and what it writes.
fn answers(reader: &Reader, table: &[u8], choices: &[u8]) -> String {
    let verdicts = [0, SPREAD, SPREAD + 1].map(|spread| (reader.check_spread)(table, spread));
    let largest = (reader.largest_spread)(table);
    let mut bytes = vec![0; AMPLE];
    let ran = (reader.run_apart)(table, choices, SPREAD, &OFFSETS, &mut bytes);
    format!("{verdicts:?} {largest:?} {ran:?} {bytes:?}")
}

/// The choices of a row, after all sides have given the same answers.
pub fn demand_agreement(row: &Row) -> Result<Vec<u8>, String> {
    let choices = choices_to_the_horizon(row)?;
    let [library, second, yardstick] = sides().map(|side| answers(&side, &row.table, &choices));
    if library == second && library == yardstick {
        Ok(choices)
    } else {
        Err(format!("{}: the answers differ", row.name))
    }
}

/// Times the verdicts, the largest spread, and a run to the horizon.
pub fn time(effort: Effort, row: &Row, choices: &[u8]) {
    let table = &row.table[..];
    let check = |reader: Reader| move || (reader.check)(black_box(table));
    line("check", in_turns(effort, sides().map(check)));
    for spread in [0, SPREAD] {
        let check = |reader: Reader| move || (reader.check_spread)(black_box(table), spread);
        let name = format!("check at spread {spread}");
        line(&name, in_turns(effort, sides().map(check)));
    }
    let largest = |reader: Reader| move || (reader.largest_spread)(black_box(table));
    line("largest spread", in_turns(effort, sides().map(largest)));
    let run = |reader: Reader, choices: &'_ [u8]| {
        let (choices, mut bytes) = (choices.to_vec(), vec![0; AMPLE]);
        let run = reader.run_apart;
        move || {
            run(
                black_box(table),
                black_box(&choices),
                SPREAD,
                black_box(&OFFSETS),
                &mut bytes,
            )
        }
    };
    let starts = in_turns(effort, sides().map(|side| run(side, &[])));
    line("start of a run apart", starts);
    let whole = in_turns(effort, sides().map(|side| run(side, choices)));
    let count = choices.len();
    line(&format!("run apart, {count} choices"), whole);
    let [a, b, c] = starts;
    let [d, e, f] = whole;
    let alone = [d.each(a, count), e.each(b, count), f.each(c, count)];
    line("  a choice of it", alone);
}
