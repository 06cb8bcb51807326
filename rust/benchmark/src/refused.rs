//! Refused tables: the verdict, and where they are refused.

use crate::clock::{in_turns, Effort};
use crate::report::line;
use crate::sides;
use crate::tables::{hub, longest, with_passages};
use comparison::readers::Reader;
use reference::calls::refused_opening;
use reference::checks::verdict;
use reference::table::*;
use std::hint::black_box;

/// Times the verdicts on refused tables, and the calls that say where they are refused,
/// after all sides have said the same.
pub fn time(effort: Effort) -> Result<(), String> {
    println!("refused tables");
    for (number, table) in read().iter().chain(&opened()) {
        demand_agreement(*number, table)?;
        let check = |reader: Reader| move || (reader.check)(black_box(table));
        let name = format!("check: {number}, {} bytes", table.len());
        line(&name, in_turns(effort, sides().map(check)));
        let place = |reader: Reader| move || (reader.refusal_place)(black_box(table));
        let opening = |reader: Reader| move || (reader.refused_opening)(black_box(table));
        match number {
            4..=6 => line("  its place", in_turns(effort, sides().map(place))),
            7..=9 => line("  its opening", in_turns(effort, sides().map(opening))),
            _ => {}
        }
    }
    Ok(())
}

/// All sides refuse the table with this number, and in the same place.
pub fn demand_agreement(number: u8, table: &[u8]) -> Result<(), String> {
    let said = |side: Reader| {
        let verdict = (side.check)(table);
        let place = (side.refusal_place)(table);
        format!("{verdict} {place:?} {:?}", (side.refused_opening)(table))
    };
    let [library, second, yardstick] = sides().map(said);
    let refused = library.starts_with(&format!("refused {number} "));
    if refused && library == second && library == yardstick {
        Ok(())
    } else {
        Err(format!("a table refused with {number}: the answers differ"))
    }
}

/// Tables that are refused by 1 to 6. Those of 4 to 6 are as long as a table
/// can be, or a byte shorter, and their last part is at fault.
pub fn read() -> Vec<(u8, Vec<u8>)> {
    let whole = write_table(&with_passages(longest(), 22));
    let with = |place: usize, byte: u8| {
        let mut bytes = whole.clone();
        bytes[place] = byte;
        bytes
    };
    let last = whole.len() - 1;
    let (version, length, components) = (0, 2, 3);
    let tables = vec![
        (1, with(version, 4)),
        (2, with(length, 1)),
        (3, with(components, 9)),
        (4, cut(&whole)),
        (5, with(last, 16)),
        (6, with(last - 1, whole[last - 3])),
    ];
    for (number, table) in &tables {
        let refusal = verdict(table).expect_err("the table is refused");
        assert_eq!(refusal.number, *number);
    }
    tables
}

/// A table without its last byte, with the lengths to match: its last part
/// does not fit.
fn cut(whole: &[u8]) -> Vec<u8> {
    let mut bytes = whole[..whole.len() - 1].to_vec();
    let mut place = 7;
    let length = |bytes: &[u8], at: usize| u16::from_be_bytes([bytes[at], bytes[at + 1]]);
    while place + usize::from(length(&bytes, place)) < whole.len() {
        place += usize::from(length(&bytes, place));
    }
    for at in [1, place] {
        let shorter = length(&bytes, at) - 1;
        bytes[at..at + 2].copy_from_slice(&shorter.to_be_bytes());
    }
    bytes
}

/// Tables of a hub and seven probes, 46 rounds of 22 passages, that are refused by 7 to
/// 9 at one of the last openings that there may be.
pub fn opened() -> Vec<(u8, Vec<u8>)> {
    let too_many = Table {
        horizon: MAX_TICKS,
        ..hub(1)
    };
    let tables = vec![
        (7, write_table(&too_many)),
        (8, write_table(&counting(1, 44))),
        (9, write_table(&counting(720, i16::MAX))),
    ];
    for (number, table) in &tables {
        let opening = refused_opening(table).expect("the table is refused");
        assert_eq!(opening.number(), *number);
        assert!(opening.passage > 45 * 22 - 8, "{}", opening.passage);
    }
    tables
}

/// The first probe adds a step in each round, and sends only up to a most of the sum.
fn counting(step: i16, most: i16) -> Table {
    let mut table = with_passages(hub(1), 1024);
    let probe = &mut table.components[0];
    probe.variables = 1;
    let [send, rest] = &mut probe.edges[..] else {
        panic!("a probe has two edges");
    };
    send.data_bounds.push(DataBound {
        variable: 0,
        low: 0,
        high: most,
    });
    let update = Update {
        variable: 0,
        operation: Operation::Add,
        number: step,
    };
    rest.action = Action::Internal([update].into_iter().collect());
    table
}

#[cfg(test)]
mod tests {
    use super::*;

    /// Each one is asserted to be what it is said to be.
    #[test]
    fn all_tables_can_be_made() {
        assert_eq!((read().len(), opened().len()), (6, 3));
    }
}
