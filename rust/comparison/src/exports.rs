//! Texts for UPPAAL: what both write, how it is read back, and what was counted of it.

mod tally;

pub use tally::Exports;

use crate::lists::Unlike;
use crate::programs::compare_written;
use crate::readers::Readers;
use reference::table::{read_table, Table};
use same_paths::{same_paths, Compared, Reach};
use timed_network::Verdict;
use xta::{Process, System};

/// As many ticks of a network are explored: small numbers of a table are no greater.
const TICKS: u32 = 40;
/// As many steps are tried of each table, about.
const STEPS: usize = 60_000;
/// The most states of a table that are looked at.
const STATES: usize = 120;

/// Lends bytes of this length to both and compares answers and texts.
pub fn compare(
    readers: &Readers,
    table: &[u8],
    length: usize,
) -> Result<(Verdict, Vec<u8>), Unlike> {
    let calls = [readers.library.uppaal, readers.second.uppaal];
    compare_written(
        calls.map(|call| move |out: &mut [u8]| call(table, out)),
        length,
    )
}

/// How long the text of a table is; 0 where the table is not read.
pub fn length(table: &[u8]) -> usize {
    read_table(table).map_or(0, |table| reference::uppaal::text(&table).len())
}

/// Reads the text of a table back and explores its network beside the table's; what is
/// wrong with it.
pub fn read_back(table: &[u8], text: &[u8]) -> Result<Compared, String> {
    let table = read_table(table).map_err(|refusal| format!("{refusal:?}"))?;
    let system = xta::read(text).map_err(|fault| fault.to_string())?;
    same_paths(&table, &system, reach(&table)).map_err(|difference| difference.to_string())
}

/// The more edges a table has, the more steps are tried in each state, and the fewer
/// states are looked at.
fn reach(table: &Table) -> Reach {
    let edges: usize = table.components.iter().map(|own| own.edges.len()).sum();
    Reach {
        ticks: TICKS,
        states: (STEPS / (edges * edges)).clamp(2, STATES),
    }
}

/// What a text has, as the vectors write it: the count of channels, and for each
/// process those of clocks, variables, locations, transitions without a channel, sends
/// and receives.
pub fn counted(system: &System) -> String {
    let processes = system.processes.iter().map(counted_process);
    system.channels.len().to_string() + &processes.collect::<String>()
}

fn counted_process(process: &Process) -> String {
    let count = |sends: Option<bool>| {
        let kinds = process.transitions.iter().map(|own| own.sync);
        let own = kinds.filter(|sync| sync.map(|sync| sync.sends) == sends);
        own.count()
    };
    let (alone, sends, receives) = (count(None), count(Some(true)), count(Some(false)));
    let (clocks, variables) = (process.clocks.len(), process.variables.len());
    let locations = process.locations.len();
    format!("|{clocks} {variables} {locations} {alone} {sends} {receives}")
}

/// What is found within so many ticks, as the vectors write it.
pub fn explored(system: &System, ticks: u32) -> String {
    match xta::explore(system, ticks) {
        Ok(found) => {
            let (states, delays) = (found.states, found.delays);
            format!("{states} {delays} {} {}", found.alone, found.joint)
        }
        Err(left) => left.to_string(),
    }
}

#[cfg(test)]
mod tests {
    use super::*;
    use crate::readers::Reader;
    use crate::tables::WORKED_EXAMPLE;

    #[test]
    fn texts_are_compared_and_read_back() {
        let second = Reader::second();
        let readers = Readers {
            library: second,
            second,
        };
        let needed = length(&WORKED_EXAMPLE);
        let (verdict, text) = compare(&readers, &WORKED_EXAMPLE, needed).unwrap();
        assert_eq!((verdict, text.len()), (Verdict::Accepted, needed));
        let found = read_back(&WORKED_EXAMPLE, &text).unwrap();
        assert!(
            found.joint > 0 && found.broken == 0 && !found.cut,
            "{found:?}"
        );
        let system = xta::read(&text).unwrap();
        assert_eq!(counted(&system), "1|1 0 4 3 1 0|1 1 7 7 0 1");
        let other = String::from_utf8(text).unwrap().replace("== 6", "<= 6");
        let told = read_back(&WORKED_EXAMPLE, other.as_bytes()).unwrap_err();
        assert!(told.starts_with("tick "), "{told}");
        let told = read_back(&WORKED_EXAMPLE, b"system P0;").unwrap_err();
        assert_eq!(told, "line 1, 8: no process P0");
        assert_eq!(length(&[]), 0);
    }
}
