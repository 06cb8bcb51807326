//! Airtimes beside the check, whose work they have and a sum over the passages; and a
//! network put into a site and taken out.

use crate::clock::{in_turns, Effort};
use crate::report::line;
use crate::sides;
use crate::tables::{hub, with_passages, worked_example};
use comparison::readers::Reader;
use comparison::sites::Asked;
use reference::table::write_table;
use std::hint::black_box;

/// The worked example, and the hub of seven probes.
pub fn tried() -> [(&'static str, Vec<u8>); 2] {
    [
        ("the worked example", write_table(&worked_example(1))),
        (
            "a hub and seven probes",
            write_table(&with_passages(hub(1), 1024)),
        ),
    ]
}

/// Times airtimes and sites, after all sides have told the same.
pub fn time(effort: Effort) -> Result<(), String> {
    println!("airtimes, and a network put in and taken out");
    for (name, table) in &tried() {
        demand_agreement(name, table)?;
        println!("{name}: {} bytes", table.len());
        let table = &table[..];
        let checks =
            |reader: Reader| move || (reader.check)(black_box(table)).into_result().is_ok();
        let checked = in_turns(effort, sides().map(checks));
        line("check", checked);
        let airs = |reader: Reader| move || (reader.airtime)(black_box(table));
        let aired = in_turns(effort, sides().map(airs));
        line("airtime", aired);
        let (least, median) = (
            aired[0].least / checked[0].least,
            aired[0].median / checked[0].median,
        );
        println!("  the library's airtime/check: {least:.2} {median:.2}");
        let calls = [Asked::Put(table, 3), Asked::Take(3)];
        let shares = |reader: Reader| move || (reader.site)(u32::MAX, black_box(&calls));
        line("put and take", in_turns(effort, sides().map(shares)));
    }
    Ok(())
}

/// All sides tell the same, and do not refuse.
pub fn demand_agreement(name: &str, table: &[u8]) -> Result<(), String> {
    let told = |side: Reader| {
        let calls = [Asked::Put(table, 3), Asked::Take(3)];
        ((side.airtime)(table), (side.site)(u32::MAX, &calls))
    };
    let [library, second, yardstick] = sides().map(told);
    if library.0.is_ok() && library == second && library == yardstick {
        Ok(())
    } else {
        Err(format!("airtime of {name}: the answers differ"))
    }
}
