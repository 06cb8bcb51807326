//! The safe calls `period` and `run_to`: the vectors, plans, lent bytes of several
//! lengths, refusals.

mod common;

use common::*;
use timed_network::{period, plan, run, run_to, run_to_numbers, Pair, Slots, Verdict};
use timed_network::{End, MAX_CHOICES, MAX_PASSAGES, MAX_PLAN, OBSERVATION, TICK};

/// As many bytes as any run to a table's own horizon takes.
const AMPLE: usize = OBSERVATION * MAX_PASSAGES;

fn pair_told(table: &[u8]) -> String {
    match period(table) {
        Ok(Some(Pair { from, to })) => format!("{from} {to}"),
        Ok(None) => "none".to_string(),
        Err(refused) => Verdict::from(refused).to_string(),
    }
}

/// The answer as the vectors write it; what is not written is kept.
fn run_told(table: &[u8], choices: &[u8], horizon: u32, lent: usize) -> String {
    let mut bytes = vec![77; lent];
    let answer = run_to_numbers(table, choices, horizon, &mut bytes);
    let (written, past) = bytes.split_at(answer.size as usize * OBSERVATION);
    assert!(past.iter().all(|byte| *byte == 77));
    if answer.number != 0 {
        let rest = (answer.end, answer.node, answer.tick, answer.used);
        assert_eq!((rest, answer.size), ((0, 255, 0, 0), 0));
        return format!("refused {} {}", answer.number, answer.component);
    }
    assert_eq!(answer.component, 255);
    let (end, node, tick, used) = (answer.end, answer.node, answer.tick, answer.used);
    let mut told = format!("{end} {node} {tick} {used}");
    for observation in written.chunks(OBSERVATION) {
        let bytes: String = observation.iter().map(|b| format!("{b:02x}")).collect();
        told += &format!("|{bytes}");
    }
    told
}

#[test]
fn all_vectors() {
    let mut counts = [0; 2];
    for line in text("vectors/periods.tsv").lines() {
        let fields: Vec<&str> = line.split('\t').collect();
        let words: Vec<&str> = fields[1].split(' ').collect();
        counts[usize::from(words[0] != "period")] += 1;
        let number = |word: &str| word.parse().unwrap();
        let long = |lent, [a, b, to]: [&str; 3]| run_told(&unhex(a), &unhex(b), number(to), lent);
        let given = match words[..] {
            ["period", table] => pair_told(&unhex(table)),
            ["long", a, b, to] => long(AMPLE, [a, b, to]),
            ["lent", lent, "long", a, b, to] => long(lent.parse().unwrap(), [a, b, to]),
            _ => panic!("no such request: {line}"),
        };
        assert_eq!(given, fields[2], "{}: {}", fields[0], fields[1]);
    }
    assert_eq!(counts, [64, 75]);
}

fn planned(probes: u32, ticks: u32) -> Vec<u8> {
    let slots = Slots {
        probes,
        slot: 2,
        guard: 1,
        period: ticks,
    };
    let mut table = vec![0; MAX_PLAN];
    let size = plan(slots, &mut table).into_result().unwrap();
    table.truncate(size);
    table
}

/// "Every plan of Wish 4 has such a pair, 0 and p."
#[test]
fn plans_come_again() {
    for (probes, ticks) in [(1, 5), (1, 30_000), (2, 9), (7, 29), (7, 777)] {
        let pair = Pair { from: 0, to: ticks };
        assert_eq!(period(&planned(probes, ticks)), Ok(Some(pair)));
        assert_eq!(pair.ticks(), ticks);
    }
}

/// A plan of one probe has four passages in each period, two of them entered with it and
/// the others in it: the probe's at 3, the hub's at 4.
#[test]
fn lent_bytes_are_counted_to_the_horizon() {
    let table = planned(1, 5);
    let entries = [0, 0, 3, 4];
    for horizon in [1, 3, 4, 5, 6, 10, 11, 14, 15, 999, 1000, 60_001, 65_537] {
        let passages: u32 = entries.iter().map(|e| (horizon + 4 - e) / 5).sum();
        let bytes = OBSERVATION * passages as usize;
        let asked = |lent| run_told(&table, &[], horizon, lent);
        assert_eq!(asked(bytes), "1 255 0 0", "{horizon}");
        assert_eq!(asked(bytes - 1), "refused 13 255", "{horizon}");
        assert_eq!(asked(0), "refused 13 255");
    }
}

/// The table's own refusal, then 29, then 13; never 14.
#[test]
fn the_order_of_the_refusals() {
    let late = with(70, 3);
    for lent in [0, AMPLE] {
        for horizon in [0, 21, 22, u32::MAX] {
            let asked = |table: &[u8]| run_told(table, &[], horizon, lent);
            assert_eq!(asked(&PROBE_AND_HUB), "refused 29 255");
            assert_eq!(asked(&late), "refused 16 0");
            assert_eq!(asked(&[]), "refused 1 255");
        }
    }
    assert_eq!(run_told(&PROBE_AND_HUB, &[], 20, 0), "refused 13 255");
    let many = vec![TICK; MAX_CHOICES + 1];
    // Nobody reaches its sleep: the hub, due at 2, is late at 3.
    assert_eq!(run_told(&PROBE_AND_HUB, &many, 20, AMPLE), "2 1 3 3");
    let refused = run_to(&PROBE_AND_HUB, &[], 21, &mut []).unwrap_err();
    assert_eq!(refused, refusal(29, 255));
    let refused = run(&PROBE_AND_HUB, &many, &mut [0; AMPLE]).unwrap_err();
    assert_eq!(refused, refusal(14, 255));
}

/// One component that works for 4 ticks and then again, H = 9: five statements to its
/// sleep, of which the location has no low; then sleep, done, zero, enter and choose.
#[test]
fn a_run_far_beyond() {
    let table = unhex("010018010000090011010001000100000400000001000000");
    assert_eq!(period(&table), Ok(Some(Pair { from: 0, to: 4 })));
    let mut choices = vec![0; 9];
    choices.extend([TICK; 4]);
    let choices = choices.repeat(80_000);
    let mut bytes = vec![0; 90_000 * OBSERVATION];
    let ran = run_to(&table, &choices, 360_000, &mut bytes).unwrap();
    assert_eq!((ran.end, ran.tick), (End::UsedUp, 320_000));
    assert_eq!(ran.used, 80_000 * 13);
    let last = ran.observations(&bytes).last().unwrap();
    assert_eq!((last.tick, last.previous_finish), (319_996, Some(319_992)));
    assert_eq!(ran.size, 80_000);
    let ran = run_to(&table, &choices, 1_001, &mut bytes).unwrap();
    assert_eq!((ran.end, ran.tick), (End::Horizon, 1_001));
}
