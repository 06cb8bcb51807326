//! The cases of the definitions (`crates/model/specs/DemandCases.antt` and
//! `DemandWrongs.antt`): the right record holds, and each wrong one is told
//! with the name of the sentence that it breaks. Those that only a table or a
//! schedule can break stand in `refused.rs`.

mod common;

use common::*;
use demand::path::Path;
use demand::{Claim, Demand, OBSERVATION};
use reference::checks::verdict;
use reference::schedule::{schedule, Passage};
use reference::table::*;

/// Probe and hub.
const WORKED: &str = "\
    010067020100140026020001000200000500000a01000100010001000003ffff\
    0000010001010000000008ffff003a030001010300000600000a00000a020002\
    00010001000002ffff000100010001010001000009ffff000100010002000101\
    0000000009ffff";

/// Both nodes to their first sleep, two ticks, the hub's sleep, a tick, the
/// probe's sleep.
const TO_THE_SEND: [u8; 15] = [0, 0, 0, 0, 0, 1, 1, 1, 1, 1, 255, 255, 1, 255, 0];

fn with(more: &[u8]) -> Vec<u8> {
    [&TO_THE_SEND[..], more].concat()
}

/// A node's first observation, for one clock and one variable.
fn observed(fields: [u8; 6]) -> Vec<u8> {
    let [component, edge, location, tick, clock, value] = fields;
    let mut bytes = vec![0; OBSERVATION];
    bytes[..3].copy_from_slice(&[component, edge, location]);
    (bytes[7], bytes[11], bytes[25]) = (tick, clock, value);
    bytes[OBSERVATION - 4..].fill(255);
    bytes
}

fn of_hub(value: u8) -> Vec<u8> {
    observed([1, 0, 0, 2, 2, value])
}

fn of_probe(edge: u8, location: u8, tick: u8, clock: u8) -> Vec<u8> {
    observed([0, edge, location, tick, clock, 0])
}

/// What is wrong with these numbers and observations under these choices.
fn problem(
    table: &Table,
    choices: &[u8],
    [end, node, tick, used]: [u32; 4],
    observations: &[u8],
) -> Option<String> {
    let passages = schedule(table).unwrap();
    let claim = Claim {
        end: end as u8,
        node: node as u8,
        tick,
        used,
        observations,
    };
    Demand::new(table, &passages).hold(choices, &claim).err()
}

fn worked() -> Table {
    verdict(&unhex(WORKED)).unwrap().0
}

#[test]
fn the_right_record_holds() {
    let written = [of_hub(0), of_probe(0, 0, 3, 3)].concat();
    let found = problem(&worked(), &with(&[0, 1, 1, 1]), [1, 255, 3, 19], &written);
    assert_eq!(found, None);
}

/// Asserts that the problem has the sentence's name.
fn assert_breaks(name: &str, found: Option<String>) {
    let found = found.unwrap_or_else(|| panic!("{name}: nothing is wrong"));
    assert!(found.starts_with(&format!("{name}: ")), "{name}? {found}");
}

#[test]
fn wrong_numbers() {
    let right = with(&[0, 1, 1, 1]);
    let written = [of_hub(0), of_probe(0, 0, 3, 3)].concat();
    let hub_at_sleep = vec![1, 1, 1, 1, 1, 255, 255, 1];
    let tick_at_sleep = vec![1, 1, 1, 1, 1, 255, 255, 255];
    let early_listen = [&TO_THE_SEND[..13], &[1]].concat();
    for (name, choices, numbers) in [
        // A run that goes on after a node is late; one that ends otherwise.
        ("lateEnds", vec![255; 5], [1, 255, 5, 5]),
        ("lateEnds", vec![255; 5], [1, 255, 3, 3]),
        ("lateEnds", with(&[255, 255, 255]), [1, 255, 6, 18]),
        // Late before the first choice, by a choice that is no tick, when nobody
        // is late, at the end of the window.
        ("lateIs", vec![], [2, 0, 0, 0]),
        ("lateIs", right.clone(), [2, 0, 3, 19]),
        ("lateIs", vec![255], [2, 1, 1, 1]),
        ("lateIs", with(&[255, 255]), [2, 0, 5, 17]),
        // A node of a run that is not late.
        ("node", right.clone(), [1, 0, 3, 19]),
        // An invented count of choices, an invented tick.
        ("used", right.clone(), [1, 255, 3, 20]),
        ("ticks", right.clone(), [1, 255, 4, 19]),
        // Horizon before its tick; used up with a choice left, and before the
        // first one; an end that is none of the four.
        ("ended", right.clone(), [0, 255, 3, 19]),
        ("ended", right.clone(), [1, 255, 3, 18]),
        ("ended", right.clone(), [1, 255, 0, 0]),
        ("ended", right.clone(), [4, 255, 3, 19]),
        // A choice refused that is allowed: a tick, a trial, a take, a sleep.
        ("refused", vec![255], [3, 255, 0, 0]),
        ("refused", vec![0], [3, 255, 0, 0]),
        ("refused", vec![0; 5], [3, 255, 0, 4]),
        ("refused", hub_at_sleep, [3, 255, 2, 7]),
        // Carried out, and barred: an absent node, a tick while a sleep is due, a
        // sleep and a listen before they are.
        ("allowed", vec![2], [1, 255, 0, 1]),
        ("allowed", tick_at_sleep, [1, 255, 3, 8]),
        ("allowed", vec![1; 6], [1, 255, 0, 6]),
        ("allowed", early_listen, [1, 255, 2, 14]),
    ] {
        assert_breaks(name, problem(&worked(), &choices, numbers, &written));
    }
    let mut short = worked();
    short.horizon = 1;
    assert_breaks("notBefore", problem(&short, &[255; 3], [1, 255, 3, 3], &[]));
}

/// Two components with one and the same window: the lowest is told.
#[test]
fn not_the_lowest_late_node() {
    let mut twins = worked();
    twins.components[1] = twins.components[0].clone();
    for component in &mut twins.components {
        component.edges[0].action = Action::default();
    }
    assert_eq!(problem(&twins, &[255; 4], [2, 0, 4, 4], &[]), None);
    assert_breaks("lateEnds", problem(&twins, &[255; 4], [2, 1, 4, 4], &[]));
}

#[test]
fn wrong_observations() {
    let right = with(&[0, 1, 1, 1]);
    for written in [
        [of_hub(0), of_probe(1, 0, 3, 3)],
        [of_hub(0), of_probe(0, 1, 3, 3)],
        [of_hub(0), of_probe(0, 0, 4, 3)],
        [of_hub(0), of_probe(0, 0, 3, 0)],
        [of_hub(1), of_probe(0, 0, 3, 3)],
        [of_hub(0), of_hub(0)],
    ] {
        let found = problem(&worked(), &right, [1, 255, 3, 19], &written.concat());
        assert_breaks("observed", found);
    }
    // Missing: of a run that is not late, of a node that is not the late one,
    // two of a late node.
    let probe = of_probe(0, 0, 3, 3);
    let found = problem(&worked(), &right, [1, 255, 3, 19], &probe);
    assert_breaks("complete", found);
    let late = with(&[255, 255, 255]);
    assert_breaks("complete", problem(&worked(), &late, [2, 0, 6, 18], &probe));
    let ahead = [with(&[0]), vec![1; 8], vec![255; 6]].concat();
    let found = problem(&worked(), &ahead, [2, 0, 9, 30], &of_hub(0));
    assert_breaks("complete", found);
    // Exchanged.
    let exchanged = [of_probe(0, 0, 3, 3), of_hub(0)].concat();
    assert_breaks(
        "order",
        problem(&worked(), &right, [1, 255, 3, 19], &exchanged),
    );
}

/// The worked table with a probe that may wait past its send window: the same
/// schedule.
fn narrow() -> Table {
    let mut table = worked();
    let probe = &mut table.components[0];
    probe.locations[0].bound = 10;
    let bound = ClockBound {
        clock: 0,
        low: 3,
        high: Some(5),
    };
    probe.edges[0].clock_bounds = [bound].into_iter().collect();
    table
}

/// What is wrong with a path of the table.
fn walked(table: &Table, steps: impl Fn(&mut Path) -> Result<(), String>) -> Option<String> {
    let passages = schedule(table).unwrap();
    let of = |c: u8| passages.iter().filter(move |p| p.component == c);
    let own: Vec<Vec<&Passage>> = (0..2).map(|c| of(c).collect()).collect();
    let mut path = Path::new(table, &own).unwrap();
    let ended = steps(&mut path).and_then(|()| path.finish(20).map(|_| ()));
    ended.err()
}

fn ticks(path: &mut Path, count: usize) -> Result<(), String> {
    (0..count).try_for_each(|_| path.tick())
}

#[test]
fn wrong_paths() {
    let right = |path: &mut Path| ticks(path, 3).and_then(|()| path.joint(0, 1, 0));
    assert_eq!(walked(&worked(), right), None);
    assert_eq!(walked(&narrow(), right), None);
    let early = |path: &mut Path| ticks(path, 2).and_then(|()| path.joint(0, 1, 0));
    assert_breaks("valid", walked(&worked(), early));
    let other_channel = |path: &mut Path| ticks(path, 3).and_then(|()| path.joint(0, 1, 1));
    assert_breaks("worked", walked(&worked(), other_channel));
    let times_out = |path: &mut Path| ticks(path, 6).and_then(|()| path.alone(1));
    assert_breaks("scheduled", walked(&narrow(), times_out));
    assert_breaks("kept", walked(&narrow(), |path| ticks(path, 6)));
}
