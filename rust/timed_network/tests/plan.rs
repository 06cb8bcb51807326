//! The safe call `plan`: the vectors, lent bytes of several lengths, refusals,
//! and that the library accepts what it has planned.

use std::fs;
use std::path::Path;
use timed_network::{check, plan, Call, Slots, Verdict, MAX_PLAN};

fn refused(number: u8, component: u8) -> Verdict {
    Verdict::Refused { number, component }
}

fn slots([probes, slot, guard, period]: [u32; 4]) -> Slots {
    Slots {
        probes,
        slot,
        guard,
        period,
    }
}

/// The answer as the vectors write it: the bytes in hexadecimal.
fn answer(numbers: [u32; 4], lent: usize) -> String {
    let mut table = vec![77; lent];
    let call = plan(slots(numbers), &mut table);
    assert!(table[call.size..].iter().all(|&byte| byte == 77));
    match call.verdict {
        Verdict::Accepted => {
            let bytes = table[..call.size].iter();
            bytes.map(|byte| format!("{byte:02x}")).collect()
        }
        refused => refused.to_string(),
    }
}

#[test]
fn all_vectors() {
    let file = Path::new(env!("CARGO_MANIFEST_DIR")).join("../../vectors/plan.tsv");
    let mut count = 0;
    for line in fs::read_to_string(file).unwrap().lines() {
        let fields: Vec<&str> = line.split('\t').collect();
        let Some(words) = fields[1].strip_prefix("plan ") else {
            continue;
        };
        let words: Vec<u32> = words.split(' ').map(|word| word.parse().unwrap()).collect();
        let numbers = [words[0], words[1], words[2], words[3]];
        let lent = words.get(4).map_or(MAX_PLAN, |&lent| lent as usize);
        assert_eq!(
            answer(numbers, lent),
            fields[2],
            "{}: {}",
            fields[0],
            fields[1]
        );
        count += 1;
    }
    assert_eq!(count, 76);
}

#[test]
fn bytes_past_the_table_stay_and_short_ones_are_refused() {
    for probes in 1..=7 {
        let size = 29 + 55 * probes as usize;
        let slots = slots([probes, 40, 5, 500]);
        for more in [0, 1, 500] {
            let mut table = vec![77; size + more];
            let verdict = Verdict::Accepted;
            assert_eq!(plan(slots, &mut table), Call { verdict, size });
            assert_eq!(check(&table[..size]), Verdict::Accepted);
            assert_eq!(table[size..], vec![77; more]);
        }
        for short in [0, 1, 7, size - 1] {
            let mut table = vec![77; short];
            let (verdict, size) = (refused(13, 255), 0);
            assert_eq!(plan(slots, &mut table), Call { verdict, size });
            assert_eq!(table, vec![77; short]);
        }
    }
}

#[test]
fn a_number_outside_its_range_is_refused_before_too_little_is_lent() {
    let (verdict, size) = (refused(18, 255), 0);
    for numbers in [[0, 1, 1, 4], [1, 0, 1, 4], [1, 1, 0, 4], [1, 1, 1, 3]] {
        for lent in [0, MAX_PLAN] {
            let mut table = vec![77; lent];
            let call = plan(slots(numbers), &mut table);
            assert_eq!(call, Call { verdict, size }, "{numbers:?}");
            assert_eq!(table, vec![77; lent]);
        }
    }
}
