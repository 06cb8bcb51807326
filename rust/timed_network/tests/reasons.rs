//! The safe calls `reasons` and `reasons_into`: the worked example, the vectors, the
//! corpus, lent bytes of several lengths, refusals.

mod common;

use common::*;
use timed_network::{passages, reasons, reasons_into};
use timed_network::{Reason, Reasons, Told, UnknownNumber, Verdict, REASON, REASONS_ENOUGH};

/// A reason as the vectors write it.
fn word(reason: Reason) -> String {
    match reason {
        Reason::Taken => "taken".to_string(),
        Reason::DataBound(bound) => format!("data {bound}"),
        Reason::NoWindow => "window".to_string(),
        Reason::ReadyLater => "later".to_string(),
        Reason::HigherNumber => "higher".to_string(),
    }
}

/// The answer as the vectors write it; what is not written is kept.
fn answer(table: &[u8], component: u32, tick: u32, lent: usize) -> String {
    let mut bytes = vec![77; lent];
    let told = reasons_into(table, component, tick, &mut bytes);
    let (written, past) = bytes.split_at(REASON * told.size);
    assert!(past.iter().all(|byte| *byte == 77));
    if let Verdict::Refused { .. } = told.verdict {
        assert_eq!((told.passage, told.size), (0, 0));
        return told.verdict.to_string();
    }
    let edge = |bytes: &[u8]| {
        let reason = Reason::try_from([bytes[1], bytes[2]]).unwrap();
        format!("|{} {}", bytes[0], word(reason))
    };
    let edges: String = written.chunks(REASON).map(edge).collect();
    format!("{}{edges}", told.passage)
}

#[test]
fn all_vectors() {
    let mut count = 0;
    for line in text("vectors/reasons.tsv").lines() {
        let fields: Vec<&str> = line.split('\t').collect();
        let words: Vec<&str> = fields[1].split(' ').collect();
        let (lent, [table, component, tick]) = match words[..] {
            ["why", a, b, c] => (REASONS_ENOUGH, [a, b, c]),
            ["lent", lent, "why", a, b, c] => (lent.parse().unwrap(), [a, b, c]),
            _ => panic!("no such request: {line}"),
        };
        let (component, tick) = (component.parse().unwrap(), tick.parse().unwrap());
        let given = answer(&unhex(table), component, tick, lent);
        assert_eq!(given, fields[2], "{}: {}", fields[0], fields[1]);
        count += 1;
    }
    assert_eq!(count, 157);
}

/// The answers that stand beside the accepted tables of the corpus.
#[test]
fn the_corpus() {
    let mut count = 0;
    for line in text("corpus/answers.tsv").lines() {
        let Some(name) = line.strip_suffix("\taccepted") else {
            continue;
        };
        let table = file(&format!("corpus/{name}.bin"));
        for line in text(&format!("corpus/{name}.why")).lines() {
            let words: Vec<&str> = line.splitn(3, ' ').collect();
            let [component, tick] = [0, 1].map(|place| words[place].parse().unwrap());
            let given = answer(&table, component, tick, REASONS_ENOUGH);
            assert_eq!(given, words[2], "{name}: {line}");
            count += 1;
        }
    }
    assert_eq!(count, 766);
}

/// One edge leaves each location of the worked example; the hub takes edge 1 from
/// tick 6, at which it has heard the probe.
#[test]
fn each_tick_of_the_worked_example() {
    let rows = passages(&PROBE_AND_HUB).unwrap();
    for component in 0..2 {
        for tick in 0..20 {
            let of_it = |row: &[u32; 7]| row[0] == component && row[3] <= tick && tick < row[5];
            let passage = rows.iter().position(of_it).unwrap();
            let edges = vec![(rows[passage][1] as u8, Reason::Taken)];
            let passage = passage as u32;
            let expected = Reasons { passage, edges };
            assert_eq!(reasons(&PROBE_AND_HUB, component, tick), Ok(expected));
        }
    }
    let hub = reasons(&PROBE_AND_HUB, 1, 6).unwrap();
    assert_eq!((hub.passage, hub.edges), (3, vec![(1, Reason::Taken)]));
}

#[test]
fn bytes_past_the_edges_stay_and_short_ones_are_refused() {
    for length in 0..8 {
        let mut bytes = vec![77; length];
        let told = reasons_into(&PROBE_AND_HUB, 1, 6, &mut bytes);
        let mut expected = vec![77; length];
        let (verdict, passage, size) = match length {
            0..=2 => (refused(13, 255), 0, 0),
            _ => {
                expected[..3].copy_from_slice(&[1, 0, 255]);
                (Verdict::Accepted, 3, 1)
            }
        };
        let answer = Told {
            verdict,
            passage,
            size,
        };
        assert_eq!((told, bytes), (answer, expected));
    }
}

/// The table's own refusal, then 21, then 13.
#[test]
fn the_order_of_the_refusals() {
    let late = with(70, 3);
    for (component, tick) in [(2, 0), (256, 0), (0, 20), (0, 65_539), (u32::MAX, u32::MAX)] {
        for lent in [0, REASONS_ENOUGH] {
            let asked = |table: &[u8]| answer(table, component, tick, lent);
            assert_eq!(asked(&PROBE_AND_HUB), "refused 21 255");
            assert_eq!(asked(&late), "refused 16 0");
            assert_eq!(asked(&[]), "refused 1 255");
        }
        let refused = reasons(&PROBE_AND_HUB, component, tick);
        assert_eq!(refused, Err(refusal(21, 255)));
    }
    assert_eq!(answer(&late, 0, 0, 0), "refused 16 0");
    assert_eq!(answer(&PROBE_AND_HUB, 0, 0, 0), "refused 13 255");
}

#[test]
fn reasons_have_numbers_and_words() {
    let all = [
        ([0, 255], Reason::Taken, "taken"),
        ([1, 3], Reason::DataBound(3), "data bound 3 fails"),
        (
            [2, 255],
            Reason::NoWindow,
            "no window of at least one tick, or of its budget",
        ),
        ([3, 255], Reason::ReadyLater, "ready later"),
        (
            [4, 255],
            Reason::HigherNumber,
            "ready together, numbered higher",
        ),
    ];
    for (bytes, reason, words) in all {
        assert_eq!(Reason::try_from(bytes), Ok(reason));
        assert_eq!(
            (reason.number(), reason.to_string()),
            (bytes[0], words.to_string())
        );
        assert_eq!(reason.bound(), Some(bytes[1]).filter(|bound| *bound != 255));
    }
    for [number, bound, unknown] in [[5, 255, 5], [0, 0, 0], [1, 4, 4], [1, 255, 255], [4, 1, 1]] {
        let unknown = Err(UnknownNumber(unknown));
        assert_eq!(Reason::try_from([number, bound]), unknown);
    }
}
