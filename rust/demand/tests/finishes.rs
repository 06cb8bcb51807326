//! The finish tick in each observation: each sentence about it is broken by the ticks
//! that it is there to shut out, and the stored runs have ticks of all kinds.

mod common;

use common::*;
use demand::finishes::{begins, in_previous, on_path, Noted, NO_WORK};
use demand::observed::{read, Written};
use demand::path::Path;
use demand::{Claim, Demand, OBSERVATION};
use reference::checks::verdict;
use reference::schedule::Passage;
use reference::table::Table;

/// A stored run by its name.
fn named(name: &str) -> Stored {
    let mut all = stored_apart().into_iter();
    all.find(|stored| stored.name == name).unwrap()
}

/// What is wrong with a stored run whose finish ticks are changed, each as this says of
/// the node, its number among the node's and the right one.
fn problem(stored: &Stored, change: impl Fn(u8, usize, u32) -> u32) -> Option<String> {
    let (table, passages) = verdict(&stored.table).unwrap();
    let mut answer = stored.answer.clone();
    let mut counts = [0; 8];
    for bytes in answer.observations.chunks_mut(OBSERVATION) {
        let (node, tick) = (bytes[0], u32::from_be_bytes(*bytes.last_chunk().unwrap()));
        let changed = change(node, counts[usize::from(node)], tick);
        counts[usize::from(node)] += 1;
        bytes[OBSERVATION - 4..].copy_from_slice(&changed.to_be_bytes());
    }
    let demand = Demand::new(&table, &passages);
    let held = demand.hold_apart(&stored.choices, &stored.offsets, &answer.claim());
    held.err()
}

/// Asserts that the problem has the sentence's name.
fn assert_breaks(name: &str, found: Option<String>) {
    let found = found.unwrap_or_else(|| panic!("{name}: nothing is wrong"));
    assert!(found.starts_with(&format!("{name}: ")), "{name}? {found}");
}

/// The sender's clock is three ticks behind: its message leaves at its 10, and is taken
/// at the receiver's 13.
#[test]
fn the_ticks_of_a_message() {
    let stored = named("messages, offsets (3, 0), early");
    assert_eq!(problem(&stored, |_, _, tick| tick), None);
    let second = |node| {
        let bytes = stored.answer.observations.chunks(OBSERVATION);
        let own = bytes.filter(|bytes| bytes[0] == node).nth(1).unwrap();
        u32::from_be_bytes(*own.last_chunk().unwrap())
    };
    assert_eq!((second(0), second(1)), (10, 13));
    let name = "Finishes.ticks";
    // The sender's tick for both, the receiver's tick for both, the common tick.
    let senders = |node, number, tick| if (node, number) == (1, 1) { 10 } else { tick };
    assert_breaks(name, problem(&stored, senders));
    let receivers = |node, number, tick| if (node, number) == (0, 1) { 13 } else { tick };
    assert_breaks(name, problem(&stored, receivers));
    let common = |node, number, tick| tick + 3 * u32::from(node == 0 && number > 0);
    assert_breaks(name, problem(&stored, common));
    // 0 for the first of a node, and for the first of the last node alone.
    for wrong in [0, 1] {
        let first = |node, number, tick| {
            if node >= wrong && number == 0 {
                0
            } else {
                tick
            }
        };
        assert_breaks(name, problem(&stored, first));
    }
    // No tick in the second, none anywhere.
    let none = |_, number, tick| if number == 1 { NO_WORK } else { tick };
    assert_breaks(name, problem(&stored, none));
    assert_breaks(name, problem(&stored, |_, _, _| NO_WORK));
}

/// A work of the window 2 to 6: any other tick of that window is wrong.
#[test]
fn the_ticks_of_a_window() {
    for right in 2..=6 {
        let stored = named(&format!("work of a window 2 to 6 finished at {right}"));
        for other in 0..9 {
            let change = |node, number, tick| match (node, number) {
                (0, 1) => other,
                _ => tick,
            };
            match problem(&stored, change) {
                None => assert_eq!(other, right),
                found => {
                    assert_ne!(other, right);
                    assert_breaks("Finishes.ticks", found);
                }
            }
        }
    }
}

#[test]
fn an_observation_without_its_tick() {
    let stored = named("probe and hub, early");
    let (table, passages) = verdict(&stored.table).unwrap();
    let demand = Demand::new(&table, &passages);
    let bytes = stored.answer.observations.chunks(OBSERVATION);
    let old: Vec<&[u8]> = bytes.map(|bytes| &bytes[..OBSERVATION - 4]).collect();
    let claim = Claim {
        observations: &old.concat(),
        ..stored.answer.claim()
    };
    assert_breaks("Finishes.each", demand.hold(&stored.choices, &claim).err());
}

/// The passages of each node of a table.
fn own<'a>(table: &Table, passages: &'a [Passage]) -> Vec<Vec<&'a Passage>> {
    let of = |c: usize| {
        passages
            .iter()
            .filter(move |p| usize::from(p.component) == c)
    };
    let nodes = 0..table.components.len();
    nodes.map(|c| of(c).collect()).collect()
}

/// The probe's windows are 3 to 5, 8 to 10, 13 to 15, 18 to 20.
#[test]
fn the_previous_window() {
    let stored = named("probe and hub, early");
    let (table, passages) = verdict(&stored.table).unwrap();
    let probe = &own(&table, &passages)[0];
    let hold = |ticks: &[u32]| in_previous(0, ticks, probe).err();
    assert_eq!(hold(&[]), None);
    assert_eq!(hold(&[0]), None);
    assert_eq!(hold(&[NO_WORK, 3, 10, 14]), None);
    assert_eq!(hold(&[NO_WORK, 5, 8, 15, 18]), None);
    for wrong in [
        &[NO_WORK, 2][..],
        &[NO_WORK, 6],
        &[NO_WORK, NO_WORK],
        // Of the passage before the previous one, of the present one.
        &[NO_WORK, 3, 3],
        &[NO_WORK, 8],
        // As many as there are windows, and one more.
        &[NO_WORK, 3, 8, 13, 18, 20],
    ] {
        assert_breaks("Finishes.inPrevious", hold(wrong));
    }
}

/// The ticks of the steps in, whatever the works say.
#[test]
fn the_ticks_of_the_path() {
    let stored = named("probe and hub, early");
    let (table, passages) = verdict(&stored.table).unwrap();
    let own = own(&table, &passages);
    let mut path = Path::new(&table, &own).unwrap();
    (0..4).try_for_each(|_| path.tick()).unwrap();
    path.joint(0, 1, 0).unwrap();
    (0..5).try_for_each(|_| path.tick()).unwrap();
    path.alone(1).unwrap();
    let steps: Vec<Vec<u32>> = (0..2).map(|c| path.steps_in(c).collect()).collect();
    assert_eq!(steps, [vec![4], vec![4, 9]]);
    let written = |finishes: &[(u8, u32)]| -> Vec<Written> {
        let one = |(node, previous): &(u8, u32)| {
            let mut bytes = [0; OBSERVATION];
            bytes[0] = *node;
            bytes[OBSERVATION - 4..].copy_from_slice(&previous.to_be_bytes());
            read(&bytes).unwrap()[0]
        };
        finishes.iter().map(one).collect()
    };
    let none = NO_WORK;
    let right = written(&[(1, none), (0, none), (0, 4), (1, 4), (1, 9)]);
    assert_eq!(on_path(&right, &path), Ok(()));
    for wrong in [
        vec![(0, none), (0, 3)],
        vec![(1, none), (0, none), (1, 4), (1, 4)],
        vec![(0, 4)],
        vec![(0, none), (0, 4), (0, 8)],
    ] {
        assert_breaks("OnPath", on_path(&written(&wrong), &path).err());
    }
}

#[test]
fn ticks_begin_with_no_work() {
    let hold = |ticks: &[u32]| begins("ticks", 0, ticks, [3, 8].into_iter()).is_ok();
    assert!(hold(&[]) && hold(&[NO_WORK]) && hold(&[NO_WORK, 3]) && hold(&[NO_WORK, 3, 8]));
    assert!(!hold(&[3]) && !hold(&[NO_WORK, 8]) && !hold(&[NO_WORK, 3, 8, 13]));
}

/// What the stored runs have in their observations: of each kind some, at each place of a
/// window.
#[test]
fn the_stored_runs_have_ticks_of_all_kinds() {
    let mut all = Noted::default();
    for stored in stored_apart() {
        let (table, passages) = verdict(&stored.table).unwrap();
        let demand = Demand::new(&table, &passages);
        let claim = stored.answer.claim();
        let held = demand.hold_apart(&stored.choices, &stored.offsets, &claim);
        all.add(&held.unwrap().facts.noted);
    }
    println!("{all:?}");
    let places = [all.done, all.sent].concat();
    let counts = [all.firsts, all.taken, all.timed_out, all.spread];
    assert!(
        places.into_iter().chain(counts).all(|count| count > 3),
        "{all:?}"
    );
}
