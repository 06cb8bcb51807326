//! The list of the worked example byte by byte, nodes that wake apart, horizons, refusals.

use super::*;
use std::path::Path;

const T: u8 = 255;

/// Probe and hub, each as early as it can.
const EARLY: [u8; 110] = [
    0, 0, 0, 0, 0, 1, 1, 1, 1, 1, // both take their first edge
    T, T, 1, // the hub listens
    T, 0, 0, // the probe wakes and sends
    0, 0, 0, 0, 0, 0, 0, 0, 1, 1, 1, 1, 1, 1, 1, 1, // and both go on to their next sleep
    T, T, T, T, T, 0, 0, 0, 0, 0, 0, 0, 0, 0, 0, // the probe works at 8
    T, 1, 1, 1, 1, 1, 1, 1, 1, 1, 1, 1, // the hub at 9
    T, T, T, 1, T, 0, 0, 0, 0, 0, 0, 0, 0, 0, 0, 1, 1, 1, 1, 1, 1, 1, 1, // once more
    T, T, T, T, T, 0, 0, 0, 0, 0, 0, 0, 0, 0, 0, //
    T, 1, 1, 1, 1, 1, 1, 1, 1, 1, 1, 1, T,
];

/// The same until tick 10, each as late as it may.
const LATE_TO_10: [u8; 47] = [
    T, T, 1, 1, 1, 1, 1, 1, // the hub wakes at 2
    T, 0, 0, 0, 0, 0, 0, // the probe at 3
    T, T, 0, // it sends at 5, the end of its window
    T, T, T, 0, 0, 0, 0, 0, 0, 0, 0, 0, // it finishes the rest when it has to sleep, at 8
    T, 1, 1, 1, 1, 1, 1, 1, 1, 1, // the hub likewise, at 9
    T, 0, 1, 1, // both finish their work at 10
    T, T, 1,
];

fn corpus(name: &str) -> Vec<u8> {
    let folder = Path::new(env!("CARGO_MANIFEST_DIR")).join("../../corpus");
    std::fs::read(folder.join(name)).unwrap()
}

fn asked<'a>(late: bool, offsets: &'a [u32], horizon: Option<u32>) -> Asked<'a> {
    Asked {
        maker: if late { Maker::Late } else { Maker::Early },
        offsets,
        horizon,
    }
}

fn made(late: bool, offsets: &[u32], table: &[u8]) -> Vec<u8> {
    list(table, &asked(late, offsets, None)).unwrap()
}

/// The number and the component of a refusal.
fn refused(offsets: &[u32], horizon: Option<u32>, table: &[u8]) -> (u8, u8) {
    match list(table, &asked(false, offsets, horizon)) {
        Err(Fault::Refused(refusal)) => (refusal.number, refusal.component),
        other => panic!("{other:?}"),
    }
}

#[test]
fn the_worked_example() {
    let table = corpus("probe_and_hub.bin");
    assert_eq!(made(false, &[], &table), EARLY);
    let late = made(true, &[], &table);
    assert_eq!(late[..LATE_TO_10.len()], LATE_TO_10);
    assert_eq!(late.iter().filter(|choice| **choice == T).count(), 20);
}

/// So many of a choice.
fn times(count: usize, choice: u8) -> Vec<u8> {
    vec![choice; count]
}

/// A send 10 to 12 with its listener 7 to 15, horizon 40. The probe wakes at 2, the
/// hub at 1.
#[test]
fn nodes_that_wake_apart() {
    let table = corpus("spread_margin_3.bin");
    let early = [
        times(1, T),  // nobody is awake
        times(5, 1),  // the hub takes its first edge
        times(1, T),  //
        times(5, 0),  // the probe does
        times(6, T),  //
        times(1, 1),  // the hub listens at 8, which is 7 by its clock
        times(4, T),  //
        times(2, 0),  // the probe sends at 12, which is 10 by its clock
        times(8, 0),  // and both go on to their next sleep
        times(8, 1),  //
        times(28, T), //
    ]
    .concat();
    assert_eq!(made(false, &[2, 1], &table), early);
    let late = [
        times(8, T),  //
        times(6, 1),  // the hub wakes and listens when it has to
        times(4, T),  //
        times(6, 0),  // the probe likewise
        times(2, T),  //
        times(1, 0),  // it sends at 14, the end of its window by its clock
        times(26, T), //
    ]
    .concat();
    assert_eq!(made(true, &[2, 1], &table), late);
    let together = made(false, &[], &table);
    for offsets in [&[0][..], &[0, 0], &[0, 0, 1001]] {
        assert_eq!(made(false, offsets, &table), together);
    }
    assert_ne!(together, early);
}

#[test]
fn offsets_that_are_too_large() {
    let table = corpus("spread_margin_3.bin");
    assert_eq!(refused(&[3], None, &table), (16, 0));
    assert_eq!(refused(&[0, 1000], None, &table), (16, 0));
    assert_eq!(refused(&[1001], None, &table), (19, 255));
    assert_eq!(refused(&[0, u32::MAX], None, &table), (19, 255));
    // A table that is refused without them is refused as before.
    assert_eq!(refused(&[1001], None, &[1, 0, 7]), (2, 255));
}

#[test]
fn refused_tables() {
    assert_eq!(refused(&[], None, b""), (1, 255));
    assert_eq!(refused(&[], None, &[1, 0, 7]), (2, 255));
    let table = corpus("check10_shared_tick.bin");
    assert_eq!(refused(&[], None, &table), (10, 0));
}

/// A plan of two probes, slot 3, guard 1 and period 20 comes again; the worked example,
/// whose hub counts, does not.
#[test]
fn lists_to_a_horizon() {
    let slots = reference::plan::Slots {
        probes: 2,
        slot: 3,
        guard: 1,
        period: 20,
    };
    let table = reference::table::write_table(&reference::plan::plan(&slots).unwrap());
    let to = |late, horizon| list(&table, &asked(late, &[], Some(horizon)));
    assert_eq!(to(false, 40).unwrap(), made(false, &[], &table));
    for (late, horizon) in [(false, 7), (false, 70_001), (true, 333)] {
        let list = to(late, horizon).unwrap();
        let mut bytes = vec![0; 36 * 40_000];
        let run = reference::calls::run_to(&table, &list, horizon, &mut bytes);
        let (outcome, _) = run.unwrap();
        assert_eq!((outcome.end as u8, outcome.tick), (0, horizon));
        assert_eq!(outcome.used, list.len() as u64);
    }
    assert_eq!(refused(&[], Some(0), &table), (29, 255));
    assert_eq!(
        refused(&[], Some(21), &corpus("probe_and_hub.bin")),
        (29, 255)
    );
    let many = "more than 2000000 passages up to horizon 4294967295: no list is made";
    assert_eq!(to(false, u32::MAX), Err(Fault::TooMany(many.to_string())));
}
