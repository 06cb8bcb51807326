//! Where components are at ticks: the vectors, hand-made cases, and what holds of any
//! answer.

mod common;

use common::*;
use reference::calls::{self, POSITION};
use reference::checks::check_messages;
use reference::positions::*;
use reference::reasons::reasons;
use reference::schedule::Passage;
use reference::table::*;

/// A byte that no answer of these tests has.
const KEPT: u8 = 77;

/// The number read and the bytes that are written into so many lent ones; those past
/// them are kept, all of them after a refusal.
fn asked(table: &[u8], numbers: &[u32], lent: usize) -> Result<(usize, Vec<u8>), Refusal> {
    let mut bytes = vec![KEPT; lent];
    let answer = calls::positions(table, numbers, &mut bytes);
    let written = answer.map_or(0, |_| POSITION * (numbers.len() / 2));
    let past = bytes.split_off(written);
    assert!(past.iter().all(|byte| *byte == KEPT));
    Ok((answer?, bytes))
}

/// Pairs as the vectors write them.
fn numbers(text: &str) -> Vec<u32> {
    let words = text.split([':', ',']).filter(|word| *word != "-");
    words.map(|word| word.parse().unwrap()).collect()
}

#[test]
fn all_vectors() {
    let mut counts = [0; 2];
    for vector in vectors_of_positions() {
        let mut request = vector.request.iter().map(String::as_str);
        let mut next = || request.next().unwrap();
        let (lent, kind) = match next() {
            "lent" => (next().parse().unwrap(), next()),
            kind => (10_000, kind),
        };
        assert_eq!(kind, "where");
        let table = unhex(next());
        let given = match asked(&table, &numbers(next()), lent) {
            Ok((read, bytes)) => format!("{read}|{}", hex(&bytes)),
            Err(refusal) => format!("refused {} {}", refusal.number, refusal.component),
        };
        assert_eq!(given, vector.answer, "{}", vector.name);
        counts[usize::from(given.starts_with("refused"))] += 1;
    }
    assert_eq!(counts, [70, 45]);
}

/// The worked example: the probe sends from 3 to 5 and rests from 8 to 10.
#[test]
fn the_example() {
    let table = probe_and_hub();
    let pairs = numbers("0:0,1:1,1:2,0:2,0:3,0:4,0:5,1:5,1:6,0:8,0:10,1:19");
    let expected = "000000 000100 000101 000000 000001 000001 000200 000101 000300 000201 \
                    000400 000701";
    let bytes = unhex(&expected.replace(' ', ""));
    assert_eq!(asked(&table, &pairs, 36), Ok((8, bytes)));
    assert_eq!(asked(&table, &pairs, 35), Err(refused(13, 255)));
    for (tick, read) in [(0, 2), (4, 2), (5, 3), (6, 4), (9, 4), (10, 6), (19, 8)] {
        let (given, _) = asked(&table, &[1, tick], 3).unwrap();
        assert_eq!(given, read);
    }
}

/// A number left over is no question, whatever it is.
#[test]
fn a_number_left_over() {
    let table = probe_and_hub();
    for left_over in [0, 1, 2, 9, u32::MAX] {
        assert_eq!(asked(&table, &[left_over], 0), Ok((0, Vec::new())));
        let pair_and_more = [0, 5, left_over];
        assert_eq!(asked(&table, &pair_and_more, 3), Ok((3, vec![0, 2, 0])));
        assert_eq!(asked(&table, &pair_and_more, 2), Err(refused(13, 255)));
    }
}

/// The table's own refusal, then 21 and 24 by pair, then 13.
#[test]
fn the_order_of_the_refusals() {
    let table = probe_and_hub();
    let mut hub_low_3 = probe_and_hub_table();
    hub_low_3.components[1].edges[0] = edge(0, 2, 0, 3, receive(&[(0, 1)]));
    let hub_low_3 = write_table(&hub_low_3);
    for (pairs, number) in [
        ("2:0", 21),
        ("0:20", 21),
        ("0:0,1:4294967295", 21),
        ("256:0", 21),
        ("0:3,0:2", 24),
        ("0:3,0:2,9:1", 24),
        ("0:3,9:4,0:2", 21),
        ("0:5,9:2", 21),
        ("1:5,1:5,1:4", 24),
    ] {
        for lent in [0, 100] {
            let refusal = |table| asked(table, &numbers(pairs), lent);
            assert_eq!(refusal(&table), Err(refused(number, 255)), "{pairs}");
            assert_eq!(refusal(&hub_low_3), Err(refused(16, 0)));
            assert_eq!(refusal(&[]), Err(refused(1, 255)));
        }
    }
    assert_eq!(asked(&table, &[0, 3, 1, 3], 5), Err(refused(13, 255)));
    assert_eq!(asked(&hub_low_3, &[], 0), Err(refused(16, 0)));
    assert_eq!(asked(&table, &[], 0), Ok((0, Vec::new())));
}

#[test]
fn the_place_of_the_first_bad_pair() {
    let table = probe_and_hub_table();
    let pair = |numbers: &[u32]| Question {
        component: numbers[0],
        tick: numbers[1],
    };
    for (pairs, expected) in [
        ("0:0,1:19", None),
        ("2:0", Some((0, 21))),
        ("0:3,0:2,9:1", Some((1, 24))),
        ("0:3,1:3,9:4,0:2", Some((2, 21))),
        ("0:3,1:3,0:4,0:20", Some((3, 21))),
    ] {
        let pairs: Vec<Question> = numbers(pairs).chunks(2).map(pair).collect();
        assert_eq!(first_bad(&table, &pairs), expected);
    }
}

/// The ticks next to a passage's entry, ready and end, those below the horizon.
fn ticks(passage: &Passage, horizon: u32) -> Vec<u32> {
    let near = [passage.entry, passage.ready, passage.end];
    let ticks = near
        .into_iter()
        .flat_map(|tick| [tick.saturating_sub(1), tick, tick + 1]);
    ticks.filter(|tick| *tick < horizon).collect()
}

/// Each answer against the passages that wish 7 names, and against what is true of the
/// one named: entered by the tick, not left, and no later one of the component entered.
#[test]
fn each_answer_is_the_passage_of_the_reasons() {
    let mut counts = [0; 2];
    for_each_schedule(10_000, |table, passages| {
        if check_messages(table, passages).is_err() {
            return;
        }
        let horizon = u32::from(table.horizon);
        let all = passages.iter().take(30).flat_map(|passage| {
            let component = u32::from(passage.component);
            let ticks = ticks(passage, horizon).into_iter();
            ticks.map(move |tick| Question { component, tick })
        });
        let mut pairs: Vec<Question> = all.collect();
        pairs.sort_by_key(|pair| pair.tick);
        let positions = positions(table, passages, &pairs).unwrap();
        assert_eq!(positions.answers.len(), pairs.len());
        for (pair, answer) in pairs.iter().zip(&positions.answers) {
            let Question { component, tick } = *pair;
            let told = reasons(table, passages, component, tick).unwrap();
            assert_eq!(answer.passage, told.passage);
            let named = &passages[answer.passage];
            assert_eq!(answer.in_window, tick >= named.ready);
            let mut later = passages[answer.passage + 1..].iter();
            let own = |p: &&Passage| u32::from(p.component) == component;
            assert!(later.find(own).is_none_or(|next| next.entry > tick));
            counts[usize::from(answer.in_window)] += 1;
        }
        let last = pairs.last().unwrap().tick;
        let (read, unread) = passages.split_at(positions.read);
        assert!(read.iter().all(|passage| passage.entry <= last));
        assert!(unread.iter().all(|passage| passage.entry > last));
    });
    println!("{counts:?}");
    assert!(counts.iter().all(|count| *count > 1_000), "{counts:?}");
}
