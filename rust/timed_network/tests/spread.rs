//! The safe calls `check_spread`, `largest_spread` and `meetings_spread`: the
//! worked example and what is next to it, plans with their guard, the tables of
//! the corpus.

mod common;

use common::*;
use std::fs;
use std::path::Path;
use timed_network::*;

/// The worked example's first send, the hub's window around it, and its next one.
const SEND: [u32; FIELDS] = [0, 0, 0, 0, 3, 5, 0];
const AROUND: [u32; FIELDS] = [1, 0, 0, 0, 2, 6, 0];
const NEXT: [u32; FIELDS] = [1, 0, 0, 10, 12, 16, 0];

/// The tables of the corpus.
fn corpus() -> Vec<Vec<u8>> {
    let folder = Path::new(env!("CARGO_MANIFEST_DIR")).join("../../corpus");
    let answers = fs::read_to_string(folder.join("answers.tsv")).unwrap();
    let names = answers.lines().map(|line| line.split_once('\t').unwrap().0);
    let table = |name: &str| fs::read(folder.join(name).with_extension("bin")).unwrap();
    let tables: Vec<_> = names.map(table).collect();
    assert!(tables.len() > 200);
    tables
}

/// The table of a plan with this guard.
fn planned(guard: u32) -> Vec<u8> {
    let slots = Slots {
        probes: 3,
        slot: 2,
        guard,
        period: 6500,
    };
    let mut table = vec![0; MAX_PLAN];
    let Call { verdict, size } = plan(slots, &mut table);
    assert_eq!(verdict, Verdict::Accepted);
    table.truncate(size);
    table
}

#[test]
fn the_worked_example_at_a_spread() {
    assert_eq!(check_spread(&PROBE_AND_HUB, 0), Verdict::Accepted);
    // The hub starts one tick earlier.
    assert_eq!(check_spread(&PROBE_AND_HUB, 1), refused(16, 0));
    assert_eq!(check_spread(&PROBE_AND_HUB, 6), refused(16, 0));
    // Seven ticks after the send its next window starts.
    assert_eq!(check_spread(&PROBE_AND_HUB, 7), refused(15, 0));
    assert_eq!(check_spread(&PROBE_AND_HUB, MAX_SPREAD), refused(15, 0));
}

#[test]
fn a_spread_above_the_largest_is_refused_after_3() {
    for spread in [MAX_SPREAD + 1, 65_536, u32::MAX] {
        assert_eq!(check_spread(&PROBE_AND_HUB, spread), refused(19, 255));
        assert_eq!(check_spread(&with(8, 37), spread), refused(19, 255));
        assert_eq!(check_spread(&with(6, 0), spread), refused(3, 255));
        assert_eq!(check_spread(&PROBE_AND_HUB[..9], spread), refused(2, 255));
        assert_eq!(check_spread(&[], spread), refused(1, 255));
    }
    assert_eq!(check_spread(&with(8, 37), MAX_SPREAD), refused(4, 0));
}

#[test]
fn at_spread_0_it_is_the_check() {
    for table in corpus() {
        assert_eq!(check_spread(&table, 0), check(&table));
        let (mut list, mut other) = (vec![9; 100], vec![9; 100]);
        let answer = meetings_spread(&table, 0, &mut list);
        assert_eq!(answer, meetings(&table, &mut other));
        assert_eq!(list, other);
    }
}

/// The verdicts that the corpus keeps, a spread and its verdict a line.
#[test]
fn the_corpus_at_spreads() {
    let folder = Path::new(env!("CARGO_MANIFEST_DIR")).join("../../corpus");
    let mut count = 0;
    for entry in fs::read_dir(folder).unwrap() {
        let path = entry.unwrap().path();
        if path.extension().is_some_and(|found| found == "spread") {
            let table = fs::read(path.with_extension("bin")).unwrap();
            for line in fs::read_to_string(&path).unwrap().lines() {
                let (spread, verdict) = line.split_once(' ').unwrap();
                let given = check_spread(&table, spread.parse().unwrap());
                assert_eq!(given.to_string(), verdict, "{path:?} at {spread}");
                count += 1;
            }
        }
    }
    assert_eq!(count, 39);
}

#[test]
fn the_largest_spread_is_the_last_that_is_accepted() {
    assert_eq!(largest_spread(&PROBE_AND_HUB), Ok(0));
    for guard in [1, 2, 3, 40, 999, 1000] {
        assert_eq!(largest_spread(&planned(guard)), Ok(guard - 1));
    }
    let mut largest = Vec::new();
    for table in corpus() {
        match largest_spread(&table) {
            Ok(spread) => {
                assert_eq!(check_spread(&table, spread), Verdict::Accepted);
                assert_ne!(check_spread(&table, spread + 1), Verdict::Accepted);
                largest.push(spread);
            }
            Err(refused) => assert_eq!(Verdict::from(refused), check(&table)),
        }
    }
    for spread in [0, 1, MAX_SPREAD] {
        assert!(largest.contains(&spread), "{largest:?}");
    }
}

#[test]
fn windows_that_are_near_are_listed() {
    for (spread, number, met) in [
        (1, 16, vec![SEND, AROUND]),
        (6, 16, vec![SEND, AROUND]),
        (7, 15, vec![SEND, AROUND, NEXT]),
    ] {
        let needed = FIELDS * met.len();
        for more in [0, 1, 100] {
            let mut list = vec![9; needed + more];
            let answer = meetings_spread(&PROBE_AND_HUB, spread, &mut list);
            assert_eq!(answer.table, refused(number, 0));
            assert_eq!(
                (answer.verdict, answer.size),
                (Verdict::Accepted, met.len())
            );
            assert_eq!(list[..needed], met.concat());
            assert_eq!(list[needed..], vec![9; more]);
        }
        for length in [0, 1, FIELDS, needed - 1] {
            let mut list = vec![9; length];
            let answer = meetings_spread(&PROBE_AND_HUB, spread, &mut list);
            assert_eq!(answer.table, refused(number, 0));
            assert_eq!((answer.verdict, answer.size), (refused(13, 255), 0));
            assert_eq!(list, vec![9; length]);
        }
    }
}

#[test]
fn of_an_accepted_table_and_after_19_nothing_is_listed() {
    let mut list = [9; 20];
    let table = planned(5);
    for (spread, verdict) in [
        (0, Verdict::Accepted),
        (4, Verdict::Accepted),
        (MAX_SPREAD + 1, refused(19, 255)),
    ] {
        for length in [0, 20] {
            let answer = meetings_spread(&table, spread, &mut list[..length]);
            assert_eq!(answer.table, verdict);
            assert_eq!((answer.verdict, answer.size), (Verdict::Accepted, 0));
        }
    }
    assert_eq!(list, [9; 20]);
}
