//! Where components are at ticks: the vectors, and each tick of each component of the
//! corpus against its schedule.

mod common;

use common::*;
use yardstick::{Refusal, Yardstick, FIELDS, POSITION};

/// The number read and the bytes that are written into so many lent ones; those past
/// them are kept, all of them after a refusal.
fn asked(
    yardstick: &mut Yardstick,
    table: &[u8],
    numbers: &[u32],
    lent: usize,
) -> Result<String, Refusal> {
    let mut bytes = vec![77; lent];
    let answer = yardstick.positions(table, numbers, &mut bytes);
    let written = answer.map_or(0, |_| POSITION * (numbers.len() / 2));
    assert!(bytes[written..].iter().all(|byte| *byte == 77));
    Ok(format!("{}|{}", answer?, hex(&bytes[..written])))
}

/// Pairs as the vectors write them.
fn numbers(pairs: &str) -> Vec<u32> {
    let words = pairs.split([':', ',']).filter(|word| *word != "-");
    words.map(|word| word.parse().unwrap()).collect()
}

/// The tables of the corpus that have pairs.
const CORPUS: [&str; 3] = [
    "accepted_1024_passages",
    "accepted_eight_components",
    "probe_and_hub",
];

#[test]
fn all_vectors() {
    let mut yardstick = Yardstick::new();
    let mut count = 0;
    for line in text("vectors/positions.tsv").lines() {
        let fields: Vec<&str> = line.split('\t').collect();
        let request: Vec<&str> = fields[1].split(' ').collect();
        let (lent, table, pairs) = match request[..] {
            ["lent", lent, "where", table, pairs] => (lent.parse().unwrap(), table, pairs),
            ["where", table, pairs] => (10_000, table, pairs),
            _ => panic!("no such request: {request:?}"),
        };
        let given = told(asked(&mut yardstick, &unhex(table), &numbers(pairs), lent));
        assert_eq!(given, fields[2], "{}: {}", fields[0], fields[1]);
        count += 1;
    }
    assert_eq!(count, 115);
}

/// The lists of pairs that stand beside tables of the corpus.
#[test]
fn the_pairs_of_the_corpus() {
    let mut yardstick = Yardstick::new();
    let mut count = 0;
    for name in CORPUS {
        let table = bytes(&format!("corpus/{name}.bin"));
        for line in text(&format!("corpus/{name}.where")).lines() {
            let (pairs, answer) = line.split_once(' ').unwrap();
            let given = told(asked(&mut yardstick, &table, &numbers(pairs), 100));
            assert_eq!(given, answer, "{name}: {pairs}");
            count += 1;
        }
    }
    assert_eq!(count, 30);
}

/// The answer to a pair from the rows of a schedule: the last one of the component that
/// is entered by the tick.
fn sought(rows: &[&[u32]], component: u32, tick: u32) -> [u8; POSITION] {
    let named = |row: &&[u32]| row[0] == component && row[3] <= tick;
    let place = rows.iter().rposition(named).unwrap();
    let [high, low] = (place as u16).to_be_bytes();
    [high, low, u8::from(tick >= rows[place][4])]
}

/// All ticks of all components, up to 2,000 of them, tick by tick.
#[test]
fn each_tick_of_the_corpus() {
    let mut yardstick = Yardstick::new();
    let mut asked = 0;
    for line in text("corpus/answers.tsv").lines() {
        let (name, expected) = line.split_once('\t').unwrap();
        if expected != "accepted" {
            continue;
        }
        let table = bytes(&format!("corpus/{name}.bin"));
        let mut list = vec![0; FIELDS * 1024];
        let size = yardstick.schedule(&table, &mut list).unwrap();
        let rows: Vec<&[u32]> = list.chunks(FIELDS).take(size).collect();
        let horizon = u32::from(u16::from_be_bytes([table[5], table[6]]));
        let ticks = (0..horizon).step_by(1 + horizon as usize / 2_000);
        let of_tick = |tick| (0..u32::from(table[3])).map(move |number| [number, tick]);
        let pairs: Vec<[u32; 2]> = ticks.flat_map(of_tick).collect();
        let mut answers = vec![[0; POSITION]; pairs.len()];
        let read = yardstick
            .positions(&table, pairs.as_flattened(), answers.as_flattened_mut())
            .unwrap();
        let last = pairs.last().unwrap()[1];
        assert_eq!(read, rows.iter().filter(|row| row[3] <= last).count());
        for ([component, tick], answer) in pairs.iter().zip(&answers) {
            assert_eq!(*answer, sought(&rows, *component, *tick), "{name}");
            asked += 1;
        }
    }
    assert!(asked > 10_000, "{asked} pairs");
}
