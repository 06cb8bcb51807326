//! Entries at which the edge choice is asked: those of a schedule, and made-up
//! ones.

use crate::lists::Unlike;
use crate::random::Random;
use crate::readers::Readers;
use reference::checks::verdict;
use reference::schedule::Passage;
use reference::table::{read_table, Table};
use std::collections::HashSet;
use timed_network::{EdgeChoice, Entry, TakenEdge, Verdict};

/// What came of an edge choice.
pub type Chosen = Result<EdgeChoice, Verdict>;

/// Asks both and compares the answers.
pub fn compare(readers: &Readers, table: &[u8], entry: &Entry) -> Result<Chosen, Unlike> {
    let library = (readers.library.edge_choice)(table, entry);
    let second = (readers.second.edge_choice)(table, entry);
    if library == second {
        return Ok(library);
    }
    Err(Unlike {
        library: told(&library),
        second: told(&second),
    })
}

/// An answer in words.
pub fn told(chosen: &Chosen) -> String {
    match chosen {
        Ok(EdgeChoice { taken, looked }) => match taken {
            Some(TakenEdge { edge, ready, end }) => {
                format!("edge {edge} from {ready} to {end}, looked at {looked}")
            }
            None => format!("no edge, looked at {looked}"),
        },
        Err(refused) => refused.to_string(),
    }
}

/// The entry of a passage.
fn entry(passage: &Passage) -> Entry {
    Entry {
        component: passage.component,
        location: passage.location,
        clocks: passage.clocks,
        values: passage.variables,
    }
}

/// The edge of a passage, its window counted from the entry.
fn taken(passage: &Passage) -> TakenEdge {
    TakenEdge {
        edge: passage.edge,
        ready: passage.ready - passage.entry,
        end: passage.end - passage.entry,
    }
}

/// The entries of an accepted table's schedule in their order, each with the
/// edge that the schedule takes there.
pub fn scheduled(table: &[u8]) -> Vec<(Entry, TakenEdge)> {
    let passages = verdict(table).map_or(Vec::new(), |(_, passages)| passages);
    passages.iter().map(|p| (entry(p), taken(p))).collect()
}

/// The same without those that stood there before.
pub fn scheduled_once(table: &[u8]) -> Vec<(Entry, TakenEdge)> {
    let mut seen = HashSet::new();
    let numbers = |entry: &Entry| (entry.component, entry.location, entry.clocks, entry.values);
    let mut entries = scheduled(table);
    entries.retain(|(entry, _)| seen.insert(numbers(entry)));
    entries
}

/// Entries for a table: each component where it starts, then some with any
/// component, location, clocks and variables, also with absent ones.
pub fn made_up(random: &mut Random, table: &[u8], count: usize) -> Vec<Entry> {
    let table = read_table(table);
    let starts = table.as_ref().map_or(Vec::new(), starts);
    let any = (0..count).map(|_| anywhere(random));
    starts.into_iter().chain(any).collect()
}

/// Where the components start.
fn starts(table: &Table) -> Vec<Entry> {
    let start = |(number, component): (u8, &reference::table::Component)| Entry {
        component: number,
        location: component.initial,
        ..Entry::default()
    };
    (0..).zip(&table.components).map(start).collect()
}

/// Any entry; most have small numbers.
fn anywhere(random: &mut Random) -> Entry {
    let most = random.pick(&[1, 2, 4, 9, 256]);
    Entry {
        component: random.below(most) as u8,
        location: random.below(most) as u8,
        clocks: [(); 4].map(|()| match random.below(8) {
            0 => random.number() as u32,
            1 => random.pick(&[59_999, 60_000, 60_001, 65_535, 65_536, u32::MAX]),
            _ => random.below(7) as u32,
        }),
        values: [(); 4].map(|()| match random.below(8) {
            0 => random.two() as i16,
            1 => random.pick(&[i16::MIN, i16::MAX]),
            _ => random.below(7) as i16 - 3,
        }),
    }
}

#[cfg(test)]
mod tests {
    use super::*;
    use crate::tables::WORKED_EXAMPLE;

    /// Probe and hub in two rounds: the hub's counter tells them apart.
    #[test]
    fn entries_are_those_of_the_schedule() {
        let entries = scheduled(&WORKED_EXAMPLE);
        assert_eq!(entries.len(), 8);
        let (hub, edge) = entries[5];
        assert_eq!((hub.component, hub.location), (1, 0));
        assert_eq!((hub.clocks, hub.values), ([0; 4], [1, 0, 0, 0]));
        let (ready, end) = (2, 6);
        assert_eq!(
            edge,
            TakenEdge {
                edge: 0,
                ready,
                end
            }
        );
        assert_eq!(scheduled_once(&WORKED_EXAMPLE).len(), 6);
        assert_eq!(scheduled(&[]), Vec::new());
    }

    #[test]
    fn made_up_entries_begin_with_the_starts() {
        let mut random = Random::new(3);
        let entries = made_up(&mut random, &WORKED_EXAMPLE, 5);
        assert_eq!(entries.len(), 7);
        assert_eq!(entries[0], Entry::default());
        let component = 1;
        let hub = Entry {
            component,
            ..Entry::default()
        };
        assert_eq!(entries[1], hub);
        assert_eq!(made_up(&mut random, &[], 5).len(), 5);
    }
}
