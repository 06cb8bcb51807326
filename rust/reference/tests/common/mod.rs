//! What the tests share: the worked example, hexadecimal, and the vectors.
#![allow(dead_code)]

use reference::calls;
use reference::run::{Outcome, FINISH_TICK, OBSERVATION};
use reference::schedule::{schedule, Passage};
use reference::table::*;
use std::path::PathBuf;

/// The 103 bytes of "Probe and hub".
pub const PROBE_AND_HUB: &str = "010067020100140026020001000200000500000a\
     01000100010001000003ffff0000010001010000000008ffff003a030001010300000600000a00000a\
     02000200010001000002ffff000100010001010001000009ffff0001000100020001010000000009ffff";

/// The same in version 3, all on band 0, with these budgets of the probe's two edges
/// and the hub's three.
pub fn budgeted(budgets: [u16; 5]) -> Table {
    let mut table = probe_and_hub_table();
    (table.version, table.bands) = (3, vec![0]);
    let edges = table.components.iter_mut().flat_map(|c| &mut c.edges);
    edges
        .zip(budgets)
        .for_each(|(edge, budget)| edge.budget = budget);
    table
}

pub fn probe_and_hub() -> Vec<u8> {
    unhex(PROBE_AND_HUB)
}

/// The worked example as a table, to be changed by a test.
pub fn probe_and_hub_table() -> Table {
    Table {
        version: 1,
        bands: Vec::new(),
        channels: 1,
        horizon: 20,
        components: vec![probe(), hub()],
    }
}

fn probe() -> Component {
    Component {
        initial: 0,
        clocks: 1,
        variables: 0,
        locations: vec![location(5), location(10)],
        edges: vec![
            edge(0, 1, 0, 3, Action::Send(0)),
            edge(1, 0, 1, 8, internal(&[])),
        ],
    }
}

fn hub() -> Component {
    Component {
        initial: 0,
        clocks: 1,
        variables: 1,
        locations: vec![location(6), location(10), location(10)],
        edges: vec![
            edge(0, 2, 0, 2, receive(&[(0, 1)])),
            edge(1, 0, 1, 9, internal(&[(Operation::Add, 1)])),
            edge(2, 0, 1, 9, internal(&[])),
        ],
    }
}

/// A location with the invariant x0 ≤ bound.
pub fn location(bound: u16) -> Location {
    Location { clock: 0, bound }
}

/// An edge with one bound, x0 ≥ low.
pub fn edge(source: u8, destination: u8, mask: u8, low: u16, action: Action) -> Edge {
    Edge {
        source,
        destination,
        mask,
        clock_bounds: [clock_bound(low, None)].into_iter().collect(),
        action,
        ..Edge::default()
    }
}

pub fn clock_bound(low: u16, high: Option<u16>) -> ClockBound {
    ClockBound {
        clock: 0,
        low,
        high,
    }
}

/// Updates of variable 0.
pub fn internal(updates: &[(Operation, i16)]) -> Action {
    let update = |&(operation, number)| Update {
        variable: 0,
        operation,
        number,
    };
    Action::Internal(updates.iter().map(update).collect())
}

pub fn receive(pairs: &[(u8, u8)]) -> Action {
    let pair = |&(channel, location)| Pair { channel, location };
    Action::Receive(pairs.iter().map(pair).collect())
}

pub fn refused(number: u8, component: u8) -> Refusal {
    Refusal { number, component }
}

/// Bytes from hexadecimal; `-` is the empty byte string.
pub fn unhex(text: &str) -> Vec<u8> {
    if text == "-" {
        return Vec::new();
    }
    let digits: Vec<u32> = text.chars().map(|c| c.to_digit(16).unwrap()).collect();
    assert_eq!(digits.len() % 2, 0, "odd count of digits");
    digits
        .chunks(2)
        .map(|pair| (pair[0] * 16 + pair[1]) as u8)
        .collect()
}

/// Hexadecimal of bytes; `-` for none.
pub fn hex(bytes: &[u8]) -> String {
    if bytes.is_empty() {
        return "-".to_string();
    }
    bytes.iter().map(|byte| format!("{byte:02x}")).collect()
}

/// One case of the vector files.
pub struct Vector {
    pub name: String,
    pub request: Vec<String>,
    pub answer: String,
}

/// All cases of the files, in their order. A missing file fails the test.
pub fn vectors() -> Vec<Vector> {
    read_vectors(&[
        "named.tsv",
        "random.tsv",
        "chart.tsv",
        "bands.tsv",
        "hearings.tsv",
        "plan.tsv",
        "edge_choice.tsv",
        "budgets.tsv",
    ])
}

/// The cases of nodes that wake apart: `check` and `run` with a spread, `run`
/// with offsets.
pub fn vectors_apart() -> Vec<Vector> {
    read_vectors(&["apart.tsv"])
}

/// The cases of where a table is refused: `place` by checks 4 to 6, `opening` by
/// checks 7 to 9.
pub fn vectors_of_places() -> Vec<Vector> {
    read_vectors(&["places.tsv"])
}

/// The cases of why an edge is taken: `why`, before it `lent` where it is said how
/// many bytes are lent.
pub fn vectors_of_reasons() -> Vec<Vector> {
    read_vectors(&["reasons.tsv"])
}

/// The cases of finish ticks: `run`, before it `lent` where it is said how many bytes
/// are lent.
pub fn vectors_of_finishes() -> Vec<Vector> {
    read_vectors(&["finishes.tsv"])
}

/// The cases of simulated runs: `sim` with the work times, the runs and, unless it is
/// the fixed one, the seed.
pub fn vectors_of_simulations() -> Vec<Vector> {
    read_vectors(&["simulations.tsv"])
}

/// The cases of where components are at ticks: `where`, before it `lent` where it is
/// said how many bytes are lent.
pub fn vectors_of_positions() -> Vec<Vector> {
    read_vectors(&["positions.tsv"])
}

/// The cases of texts for UPPAAL: `uppaal` with how many bytes are lent, and `explore`
/// with how many ticks.
pub fn vectors_of_uppaal() -> Vec<Vector> {
    read_vectors(&["uppaal.tsv"])
}

/// The cases of airtimes and sites: `air` with a table, `ledger` with a limit and calls.
pub fn vectors_of_sites() -> Vec<Vector> {
    read_vectors(&["sites.tsv"])
}

/// The cases of pairs and of runs to a horizon: `period`, and `long`, before it `lent`
/// where it is said how many bytes are lent.
pub fn vectors_of_periods() -> Vec<Vector> {
    read_vectors(&["periods.tsv"])
}

fn read_vectors(files: &[&str]) -> Vec<Vector> {
    let mut all = Vec::new();
    for file in files {
        let path = vector_folder().join(file);
        let text = std::fs::read_to_string(&path)
            .unwrap_or_else(|error| panic!("{}: {error}", path.display()));
        all.extend(text.lines().map(vector));
    }
    all
}

fn vector_folder() -> PathBuf {
    match std::env::var_os("VECTORS") {
        Some(folder) => PathBuf::from(folder),
        None => PathBuf::from(env!("CARGO_MANIFEST_DIR")).join("../../vectors"),
    }
}

fn vector(line: &str) -> Vector {
    let fields: Vec<&str> = line.split('\t').collect();
    assert_eq!(fields.len(), 3, "three fields: {line}");
    Vector {
        name: fields[0].to_string(),
        request: fields[1].split(' ').map(str::to_string).collect(),
        answer: fields[2].to_string(),
    }
}

/// `refused N C` as a refusal, or nothing for another answer.
pub fn refusal_of(answer: &str) -> Option<Refusal> {
    let mut words = answer.strip_prefix("refused ")?.split(' ');
    let mut number = || words.next().unwrap().parse().unwrap();
    Some(refused(number(), number()))
}

/// As many bytes as any run takes.
pub const AMPLE: usize = 1024 * OBSERVATION;

/// The answer to a `run` with so many bytes lent: the words are the table, the choices
/// and, unless they are missing, the spread and the offsets. What stands past the
/// observations must stay.
pub fn run_answer(words: &[&str], lent: usize) -> Result<String, Refusal> {
    let numbers = |word: &&str| word.split(',').map(|n| n.parse().unwrap()).collect();
    let spread = words.get(2).map_or(0, |word| word.parse().unwrap());
    let offsets: Vec<u32> = words.get(3).map_or(Vec::new(), numbers);
    let (table, choices) = (unhex(words[0]), unhex(words[1]));
    let mut bytes = vec![77; lent];
    let answer = match words {
        [_, _] => calls::run(&table, &choices, &mut bytes),
        _ => calls::run_apart(&table, &choices, spread, &offsets, &mut bytes),
    };
    run_told(answer, &bytes)
}

/// A run's answer in the words of the vectors; what stands past the observations, in
/// bytes that were all 77, must have stayed.
pub fn run_told(
    answer: Result<(Outcome, usize), Refusal>,
    bytes: &[u8],
) -> Result<String, Refusal> {
    let written = answer.map_or(0, |(_, count)| count * OBSERVATION);
    assert!(bytes[written..].iter().all(|byte| *byte == 77));
    let (outcome, _) = answer?;
    let (end, node) = (outcome.end as u8, outcome.node);
    let first = format!("{end} {node} {} {}", outcome.tick, outcome.used);
    let observations = bytes[..written].chunks(OBSERVATION).map(hex);
    let parts: Vec<String> = std::iter::once(first).chain(observations).collect();
    Ok(parts.join("|"))
}

/// The answer to a run as the older vectors have it: of each observation "the old 32"
/// bytes.
pub fn without_finishes(answer: String) -> String {
    let old = |part: &str| part[..part.len().min(2 * FINISH_TICK)].to_string();
    let parts: Vec<String> = answer.split('|').map(old).collect();
    parts.join("|")
}

/// An answer in the words of the vectors.
pub fn told(answer: Result<String, Refusal>) -> String {
    answer.unwrap_or_else(|refusal| format!("refused {} {}", refusal.number, refusal.component))
}

/// A small generator of numbers for tests that try many cases.
pub struct Numbers(pub u64);

impl Numbers {
    /// A number below `limit`.
    pub fn below(&mut self, limit: usize) -> usize {
        self.0 ^= self.0 << 13;
        self.0 ^= self.0 >> 7;
        self.0 ^= self.0 << 17;
        (self.0 % limit as u64) as usize
    }
}

/// Calls a test with the schedules of tables that passed checks 1 to 9: those
/// of the vectors, and those with bytes changed at random.
pub fn for_each_schedule(rounds: usize, mut test: impl FnMut(&Table, &[Passage])) {
    let mut numbers = Numbers(88172645463325252);
    let all = vectors();
    let requests = all.iter().filter(|v| v.request[0] == "check");
    let tables: Vec<Vec<u8>> = requests.map(|v| unhex(&v.request[1])).collect();
    for round in 0..rounds {
        let mut bytes = tables[round % tables.len()].clone();
        if round >= tables.len() {
            change(&mut bytes, &mut numbers);
        }
        let Ok(table) = read_table(&bytes) else {
            continue;
        };
        if let Ok(passages) = schedule(&table) {
            test(&table, &passages);
        }
    }
}

/// Changes up to three bytes behind the header a little, now and then H.
pub fn change(bytes: &mut [u8], numbers: &mut Numbers) {
    for _ in 0..1 + numbers.below(3) {
        let at = [5, 6, 6, numbers.below(bytes.len() + 1)][numbers.below(16).min(3)];
        if let Some(byte) = bytes.get_mut(at).filter(|_| at >= 5) {
            *byte = match numbers.below(3) {
                0 => byte.wrapping_add(1),
                1 => byte.wrapping_sub(1),
                _ => numbers.below(24) as u8,
            };
        }
    }
}

/// A table of components without channels.
pub fn table(horizon: u16, components: Vec<Component>) -> Table {
    Table {
        version: 1,
        bands: Vec::new(),
        channels: 0,
        horizon,
        components,
    }
}

/// A component with one clock and one variable.
pub fn component(bounds: &[u16], edges: Vec<Edge>) -> Component {
    Component {
        initial: 0,
        clocks: 1,
        variables: 1,
        locations: bounds.iter().map(|b| location(*b)).collect(),
        edges,
    }
}

/// A component that passes every `period` ticks.
pub fn steady(period: u16) -> Component {
    component(&[period], vec![edge(0, 0, 1, 0, internal(&[]))])
}
