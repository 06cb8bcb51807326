//! What several tests use: the stored runs, and runs of the second
//! implementation.
#![allow(dead_code)]

use demand::{Claim, Demand, Facts, OBSERVATION, TICK};
use reference::checks::verdict;
use reference::program::program;
use reference::run::{run, run_apart, Machine};
use reference::schedule::Passage;
use reference::table::Table;
use std::path::Path;

/// A run's answer: end, node, tick, choices used, then the observations.
#[derive(Clone, Debug, PartialEq, Eq)]
pub struct Answer {
    pub numbers: [u32; 4],
    pub observations: Vec<u8>,
}

impl Answer {
    pub fn claim(&self) -> Claim<'_> {
        let [end, node, tick, used] = self.numbers;
        Claim {
            end: end as u8,
            node: node as u8,
            tick,
            used,
            observations: &self.observations,
        }
    }
}

/// The bytes of an observation that the vectors older than wish 9 have.
const OLD: usize = 32;

/// All answers that differ from this one in one number, one byte or one finish tick, in
/// an observation more or less, or in the order of two.
pub fn changed(answer: &Answer) -> Vec<Answer> {
    let mut all = Vec::new();
    for place in 0..4 {
        for other in [0, 1, 2, 3, 254, 255, answer.numbers[place] + 1] {
            let mut changed = answer.clone();
            changed.numbers[place] = other;
            all.push(changed);
        }
        let mut changed = answer.clone();
        changed.numbers[place] = answer.numbers[place].wrapping_sub(1);
        all.push(changed);
    }
    for place in (0..answer.observations.len()).step_by(5) {
        for bit in [1, 128] {
            let mut changed = answer.clone();
            changed.observations[place] ^= bit;
            all.push(changed);
        }
    }
    for at in (0..answer.observations.len()).step_by(OBSERVATION) {
        let mut changed = answer.clone();
        let own: Vec<u8> = changed.observations.drain(at..at + OBSERVATION).collect();
        all.push(changed.clone());
        changed.observations.extend(own);
        all.push(changed);
        all.extend(other_finishes(answer, at));
    }
    let mut changed = answer.clone();
    changed.observations.extend([0; OBSERVATION]);
    all.push(changed.clone());
    changed.observations.push(0);
    all.push(changed);
    all.retain(|changed| changed != answer);
    all
}

/// The answer with other finish ticks in the observation at this place: next to the
/// right one, none, 0, the observation's own tick; and without the finish tick.
fn other_finishes(answer: &Answer, at: usize) -> Vec<Answer> {
    let place = at + OLD..at + OBSERVATION;
    let four = |at: usize| u32::from_be_bytes(*answer.observations[at..].first_chunk().unwrap());
    let (own, right) = (four(at + 4), four(place.start));
    let others = [
        right.wrapping_sub(1),
        right.wrapping_add(1),
        0,
        u32::MAX,
        own,
    ];
    let mut all: Vec<Answer> = Vec::new();
    for other in others {
        let mut changed = answer.clone();
        changed.observations[place.clone()].copy_from_slice(&other.to_be_bytes());
        all.push(changed);
    }
    let mut short = answer.clone();
    short.observations.drain(place);
    all.push(short);
    all
}

/// A `run` request of the vectors that is not refused.
pub struct Stored {
    pub name: String,
    pub table: Vec<u8>,
    pub choices: Vec<u8>,
    pub offsets: Vec<u32>,
    pub answer: Answer,
}

/// The runs of all vectors whose nodes wake together.
pub fn stored() -> Vec<Stored> {
    let mut all = read_stored(&[
        "named.tsv",
        "random.tsv",
        "bands.tsv",
        "hearings.tsv",
        "budgets.tsv",
        "finishes.tsv",
    ]);
    all.retain(|stored| stored.offsets.iter().all(|offset| *offset == 0));
    all
}

/// The runs of the vectors whose nodes may wake apart.
pub fn stored_apart() -> Vec<Stored> {
    read_stored(&["apart.tsv", "finishes.tsv"])
}

fn read_stored(files: &[&str]) -> Vec<Stored> {
    let folder = Path::new(env!("CARGO_MANIFEST_DIR")).join("../../vectors");
    let mut runs = Vec::new();
    for file in files {
        let path = folder.join(file);
        let text = std::fs::read_to_string(&path)
            .unwrap_or_else(|error| panic!("{}: {error}", path.display()));
        runs.extend(text.lines().filter_map(one));
    }
    runs
}

fn one(line: &str) -> Option<Stored> {
    let fields: Vec<&str> = line.split('\t').collect();
    let words: Vec<&str> = fields[1].split(' ').collect();
    let words = match words[..] {
        ["lent", _, ref run @ ..] => run,
        ref all => all,
    };
    let ("run", false) = (words[0], fields[2].starts_with("refused")) else {
        return None;
    };
    // Behind the choices comes the spread.
    let offsets = words.get(4).map_or(Vec::new(), |offsets| {
        let numbers = offsets.split(',');
        numbers.map(|offset| offset.parse().unwrap()).collect()
    });
    let mut parts = fields[2].split('|');
    let first = parts.next().unwrap().split(' ');
    let numbers: Vec<u32> = first.map(|word| word.parse().unwrap()).collect();
    let mut stored = Stored {
        name: fields[0].to_string(),
        table: unhex(words[1]),
        choices: unhex(words[2]),
        offsets,
        answer: Answer {
            numbers: numbers.try_into().unwrap(),
            observations: Vec::new(),
        },
    };
    stored.answer.observations = with_finishes(&stored, parts.map(unhex).collect());
    Some(stored)
}

/// The observations of a run. Those of the vectors older than wish 9 lack their last four
/// bytes, which are the second implementation's.
fn with_finishes(stored: &Stored, mut observations: Vec<Vec<u8>>) -> Vec<u8> {
    if observations.iter().any(|bytes| bytes.len() == OLD) {
        let (table, passages) = verdict(&stored.table).unwrap();
        let program = program(&table);
        let run = run_apart(
            &table,
            &passages,
            &program,
            &stored.choices,
            &stored.offsets,
        );
        for (bytes, whole) in observations.iter_mut().zip(run.unwrap().observations) {
            bytes.extend(&whole[OLD..]);
        }
    }
    observations.concat()
}

pub fn unhex(text: &str) -> Vec<u8> {
    if text == "-" {
        return Vec::new();
    }
    let byte = |at| u8::from_str_radix(&text[at..at + 2], 16).unwrap();
    (0..text.len()).step_by(2).map(byte).collect()
}

/// What the second implementation answers, also for a table that fails checks
/// 10 to 12.
pub fn answer(table: &Table, passages: &[Passage], choices: &[u8]) -> Answer {
    let run = run(table, passages, &program(table), choices).unwrap();
    let outcome = run.outcome;
    Answer {
        numbers: [
            outcome.end as u32,
            outcome.node.into(),
            outcome.tick,
            outcome.used as u32,
        ],
        observations: run.observations.concat(),
    }
}

/// Holds the second implementation's run to the demand.
pub fn held(table: &Table, passages: &[Passage], choices: &[u8]) -> Result<Facts, String> {
    let answer = answer(table, passages, choices);
    Demand::new(table, passages).hold(choices, &answer.claim())
}

/// A small generator of numbers.
pub struct Numbers(pub u64);

impl Numbers {
    /// A number below `limit`.
    pub fn below(&mut self, limit: usize) -> usize {
        self.0 ^= self.0 << 13;
        self.0 ^= self.0 >> 7;
        self.0 ^= self.0 << 17;
        (self.0 % limit as u64) as usize
    }
}

/// Choices that are allowed but for the last one, in any order; a tick once in
/// `lazy` times.
pub fn any_choices(numbers: &mut Numbers, table: &Table, passages: &[Passage]) -> Vec<u8> {
    let bytes = program(table);
    let mut machine = Machine::new(table, passages, &bytes).unwrap();
    let lazy = 2 + numbers.below(20);
    let mut choices = Vec::new();
    for _ in 0..2000 {
        let choice = match numbers.below(lazy) {
            0 => TICK,
            _ => numbers.below(table.components.len()) as u8,
        };
        match machine.choose(choice) {
            Some(_) => choices.push(choice),
            None if numbers.below(200) == 0 => {
                choices.push(choice);
                return choices;
            }
            None => {}
        }
        if machine.tick() > u32::from(table.horizon) {
            return choices;
        }
    }
    choices
}
