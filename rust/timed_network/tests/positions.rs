//! The safe calls `positions` and `positions_of_numbers`: the worked example, the
//! vectors, lent bytes of several lengths, refusals.

mod common;

use common::*;
use timed_network::{passages, positions, positions_of_numbers, reasons};
use timed_network::{Position, Positioned, Verdict, POSITION};

/// The answer as the vectors write it; what is not written is kept.
fn answer(table: &[u8], numbers: &[u32], lent: usize) -> String {
    let mut bytes = vec![77; lent];
    let Positioned { verdict, read } = positions_of_numbers(table, numbers, &mut bytes);
    let written = match verdict {
        Verdict::Accepted => POSITION * (numbers.len() / 2),
        Verdict::Refused { .. } => 0,
    };
    let (written, past) = bytes.split_at(written);
    assert!(past.iter().all(|byte| *byte == 77));
    if let Verdict::Refused { .. } = verdict {
        assert_eq!(read, 0);
        return verdict.to_string();
    }
    let bytes: String = written.iter().map(|byte| format!("{byte:02x}")).collect();
    match bytes.is_empty() {
        true => format!("{read}|-"),
        false => format!("{read}|{bytes}"),
    }
}

/// Pairs as the vectors write them.
fn numbers(pairs: &str) -> Vec<u32> {
    let words = pairs.split([':', ',']).filter(|word| *word != "-");
    words.map(|word| word.parse().unwrap()).collect()
}

#[test]
fn all_vectors() {
    let mut count = 0;
    for line in text("vectors/positions.tsv").lines() {
        let fields: Vec<&str> = line.split('\t').collect();
        let words: Vec<&str> = fields[1].split(' ').collect();
        let (lent, [table, pairs]) = match words[..] {
            ["where", a, b] => (10_000, [a, b]),
            ["lent", lent, "where", a, b] => (lent.parse().unwrap(), [a, b]),
            _ => panic!("no such request: {line}"),
        };
        let given = answer(&unhex(table), &numbers(pairs), lent);
        assert_eq!(given, fields[2], "{}: {}", fields[0], fields[1]);
        count += 1;
    }
    assert_eq!(count, 115);
}

/// The lists of pairs that stand beside tables of the corpus.
#[test]
fn the_pairs_of_the_corpus() {
    let mut count = 0;
    for name in [
        "accepted_1024_passages",
        "accepted_eight_components",
        "probe_and_hub",
    ] {
        let table = file(&format!("corpus/{name}.bin"));
        for line in text(&format!("corpus/{name}.where")).lines() {
            let (pairs, expected) = line.split_once(' ').unwrap();
            assert_eq!(answer(&table, &numbers(pairs), 100), expected, "{name}");
            count += 1;
        }
    }
    assert_eq!(count, 30);
}

/// Each tick of both components, against the schedule and against the reasons.
#[test]
fn each_tick_of_the_worked_example() {
    let rows = passages(&PROBE_AND_HUB).unwrap();
    let pairs: Vec<(u32, u32)> = (0..20).flat_map(|tick| [(0, tick), (1, tick)]).collect();
    let told = positions(&PROBE_AND_HUB, &pairs).unwrap();
    assert_eq!((told.answers.len(), told.read), (40, 8));
    for ((component, tick), answer) in pairs.iter().zip(&told.answers) {
        let Position { passage, in_window } = *answer;
        let row = rows[usize::from(passage)];
        assert!(row[0] == *component && row[3] <= *tick && *tick < row[5]);
        assert_eq!(in_window, *tick >= row[4]);
        let reasons = reasons(&PROBE_AND_HUB, *component, *tick).unwrap();
        assert_eq!(u32::from(passage), reasons.passage);
    }
}

#[test]
fn bytes_past_the_answers_stay_and_short_ones_are_refused() {
    for length in 0..9 {
        let expected = match length {
            0..=5 => "refused 13 255",
            _ => "3|000200000101",
        };
        assert_eq!(answer(&PROBE_AND_HUB, &[0, 5, 1, 5], length), expected);
        assert_eq!(answer(&PROBE_AND_HUB, &[0, 5, 1, 5, 9], length), expected);
    }
    assert_eq!(answer(&PROBE_AND_HUB, &[], 0), "0|-");
    assert_eq!(answer(&PROBE_AND_HUB, &[u32::MAX], 0), "0|-");
}

/// The table's own refusal, then 21 and 24 by pair, then 13.
#[test]
fn the_order_of_the_refusals() {
    let late = with(70, 3);
    let bad: [(&[u32], u8); 6] = [
        (&[2, 0], 21),
        (&[0, 20], 21),
        (&[256, 65_536], 21),
        (&[0, 3, 0, 2], 24),
        (&[0, 3, 0, 2, 9, 1], 24),
        (&[0, 3, 9, 2], 21),
    ];
    for (numbers, number) in bad {
        for lent in [0, 100] {
            let asked = |table: &[u8]| answer(table, numbers, lent);
            assert_eq!(asked(&PROBE_AND_HUB), format!("refused {number} 255"));
            assert_eq!(asked(&late), "refused 16 0");
            assert_eq!(asked(&[]), "refused 1 255");
        }
        let pairs: Vec<(u32, u32)> = numbers.chunks(2).map(|pair| (pair[0], pair[1])).collect();
        assert_eq!(positions(&PROBE_AND_HUB, &pairs), Err(refusal(number, 255)));
    }
}
