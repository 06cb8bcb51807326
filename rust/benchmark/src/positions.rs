//! Where components are at many ticks: a schedule, then one walk for all pairs.

use crate::clock::{in_turns, Effort};
use crate::report::line;
use crate::sides;
use crate::tables::{hub, with_passages, worked_example};
use comparison::random::Random;
use comparison::readers::Reader;
use reference::table::{write_table, Table};
use std::hint::black_box;
use timed_network::{Verdict, POSITION};

/// A table, and how many pairs are asked about it.
type Asked = (&'static str, Table, usize);

/// The worked example, and a hub of seven probes.
pub fn asked() -> [Asked; 2] {
    let seven = with_passages(hub(1), 1024);
    [
        (
            "the worked example, 10,000 pairs",
            worked_example(1),
            10_000,
        ),
        ("a hub and seven probes, 1,000,000 pairs", seven, 1_000_000),
    ]
}

/// So many pairs of any components and ticks of a table, sorted by tick.
pub fn pairs(table: &Table, count: usize) -> Vec<u32> {
    let mut random = Random::new(Random::SEED);
    let mut pair = || {
        let component = random.below(table.components.len()) as u32;
        [component, random.below(table.horizon.into()) as u32]
    };
    let mut pairs: Vec<[u32; 2]> = (0..count).map(|_| pair()).collect();
    pairs.sort_by_key(|[_, tick]| *tick);
    pairs.into_flattened()
}

/// Times positions, after all sides have told the same.
pub fn time(effort: Effort) -> Result<(), String> {
    println!("positions");
    for (name, table, count) in asked() {
        demand_agreement(name, &table, count)?;
        let (bytes, pairs) = (write_table(&table), pairs(&table, count));
        println!("{name}: {} bytes", bytes.len());
        let (bytes, pairs) = (&bytes[..], &pairs[..]);
        let positions = |reader: Reader| {
            let mut answers = vec![0; POSITION * count];
            move || (reader.positions)(black_box(bytes), black_box(pairs), &mut answers)
        };
        line("positions", in_turns(effort, sides().map(positions)));
    }
    Ok(())
}

/// All sides tell the same, and do not refuse.
pub fn demand_agreement(name: &str, table: &Table, count: usize) -> Result<(), String> {
    let (bytes, pairs) = (write_table(table), pairs(table, count));
    let told = |side: Reader| {
        let mut answers = vec![0; POSITION * count];
        let told = (side.positions)(&bytes, &pairs, &mut answers);
        (told, answers)
    };
    let [library, second, yardstick] = sides().map(told);
    let accepted = library.0.verdict == Verdict::Accepted;
    if accepted && library == second && library == yardstick {
        Ok(())
    } else {
        Err(format!("positions of {name}: the answers differ"))
    }
}
