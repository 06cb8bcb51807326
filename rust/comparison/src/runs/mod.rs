//! Runs: both carry out the same choices and are lent as many bytes; what
//! they say and write is compared, and held to demand 3.

pub mod apart;
pub mod choices;
pub mod noted;
pub mod offsets;
pub mod paths;
pub mod scattered;
mod tally;

pub use tally::Runs;

use crate::buffers::{first_difference, Buffer};
use crate::bytes::hex;
use crate::lists::Unlike;
use crate::readers::{Reader, Readers};
use demand::{Claim, Demand, Facts};
use reference::checks::verdict_within;
use reference::schedule::Passage;
use reference::table::Table;
use timed_network::{Observation, RunNumbers, MAX_PASSAGES, OBSERVATION};

/// The bytes that the observations of every run fit in, and a few more.
pub const AMPLE: usize = OBSERVATION * MAX_PASSAGES + 5;

/// An accepted table, to be run.
pub struct Subject {
    /// Its bytes.
    pub bytes: Vec<u8>,
    /// What they say.
    pub table: Table,
    /// Its schedule.
    pub passages: Vec<Passage>,
}

impl Subject {
    /// The table of these bytes, if it is accepted.
    pub fn new(bytes: &[u8]) -> Option<Subject> {
        Subject::within(bytes, 0)
    }

    /// The table of these bytes, if it is accepted at a spread.
    pub fn within(bytes: &[u8], spread: u32) -> Option<Subject> {
        let (table, passages) = verdict_within(bytes, spread).ok()?;
        Some(Subject {
            bytes: bytes.to_vec(),
            table,
            passages,
        })
    }

    /// What its runs are held to.
    pub fn demand(&self) -> Demand<'_> {
        Demand::new(&self.table, &self.passages)
    }

    /// The bytes that its runs ask for.
    pub fn needed(&self) -> usize {
        OBSERVATION * self.passages.len()
    }
}

/// The length of the bytes that are lent for a run, by turns: as many as it
/// asks for or more, and now and then fewer.
pub fn length(needed: usize, turn: u64) -> usize {
    let enough = [needed, needed + 1, needed + OBSERVATION, needed, AMPLE];
    let few = [needed - 1, 0, needed - OBSERVATION, needed / 2];
    if turn % 16 == 15 {
        few[(turn / 16 % few.len() as u64) as usize]
    } else {
        enough[(turn % enough.len() as u64) as usize]
    }
}

/// A run's answer and the whole buffer after it.
pub struct Lent {
    /// What the call said.
    pub answer: RunNumbers,
    buffer: Buffer,
}

impl Lent {
    /// Lends bytes of this length.
    pub fn to(reader: &Reader, table: &[u8], choices: &[u8], length: usize) -> Lent {
        Lent::by(length, |bytes| (reader.run)(table, choices, bytes))
    }

    /// Lends bytes of this length to a call.
    fn by(length: usize, run: impl FnOnce(&mut [u8]) -> RunNumbers) -> Lent {
        let mut buffer = Buffer::new(length);
        let answer = run(buffer.lent());
        Lent { answer, buffer }
    }

    /// The bytes that the answer says were written.
    fn size(&self) -> usize {
        OBSERVATION * self.answer.size as usize
    }

    /// The observations written.
    pub fn observations(&self) -> &[u8] {
        self.buffer.first(self.size())
    }

    /// The answer and the observations in words, of each as many bytes as the stored ones
    /// have: those of the vectors older than wish 9 lack the finish tick.
    pub fn told_like(&self, stored: &[Vec<u8>]) -> String {
        let width = stored.first().map_or(OBSERVATION, Vec::len);
        let own = self.observations().chunks(OBSERVATION);
        let observations: Vec<Vec<u8>> = own
            .map(|bytes| bytes[..width.min(bytes.len())].to_vec())
            .collect();
        told(&self.answer, &observations)
    }

    /// The answer as the corpus has it: end, node, tick and choices used, then node, tick
    /// and finish tick of each observation, `-` for none.
    pub fn shown(&self) -> String {
        let RunNumbers {
            end,
            node,
            tick,
            used,
            ..
        } = self.answer;
        let mut told = format!("{end} {node} {tick} {used}");
        let (places, _) = self.observations().as_chunks();
        for shown in places.iter().map(Observation::from) {
            let finish = shown.previous_finish.map(|tick| tick.to_string());
            let finish = finish.unwrap_or("-".to_string());
            told += &format!("|{} {} {finish}", shown.component, shown.tick);
        }
        told
    }

    /// Whether the answer is a refusal.
    fn is_refused(&self) -> bool {
        self.answer.number != 0
    }

    fn told(&self, place: Option<usize>) -> String {
        let mut text = numbers(&self.answer);
        if let Some(place) = place {
            let own = self.observations().chunks(OBSERVATION);
            let number = place / OBSERVATION;
            let observation = own.skip(number).map(hex).next();
            text += &format!(", observation {number} {observation:?}");
        }
        if let Some(place) = self.buffer.written_past(self.size()) {
            text += &format!(", written past the result at place {place}");
        }
        text
    }
}

/// An answer and its observations in words.
pub fn told(answer: &RunNumbers, observations: &[Vec<u8>]) -> String {
    let observations: Vec<String> = observations.iter().map(|bytes| hex(bytes)).collect();
    format!("{}: {}", numbers(answer), observations.join(" "))
}

/// An answer in words.
pub fn numbers(answer: &RunNumbers) -> String {
    let RunNumbers {
        number,
        component,
        end,
        node,
        tick,
        used,
        size,
    } = answer;
    let start = match number {
        0 => format!("component {component}"),
        _ => format!("refused {number} {component}"),
    };
    format!("{start}, end {end}, node {node}, tick {tick}, used {used}, {size} observations")
}

/// Why a run is a difference: what both sides say, and what the demand says
/// if that is what is broken.
pub struct Broken {
    /// What both sides say.
    pub unlike: Unlike,
    /// The sentence that does not hold of the library's run.
    pub demand: Option<String>,
}

/// What a run on which both agree came to.
pub struct Ran {
    /// The answer.
    pub answer: RunNumbers,
    /// What it was found to have done; nothing for a refused one.
    pub facts: Option<Facts>,
}

/// Runs a table under choices on both sides with bytes of this length lent,
/// and holds the library's run to the demand, if there is one.
pub fn compare(
    readers: &Readers,
    table: &[u8],
    demand: Option<&Demand>,
    choices: &[u8],
    length: usize,
) -> Result<Ran, Broken> {
    let library = Lent::to(&readers.library, table, choices, length);
    let second = Lent::to(&readers.second, table, choices, length);
    alike(&library, &second)?;
    let facts = match demand {
        Some(demand) if !library.is_refused() => {
            let held = demand.hold(choices, &claim(&library));
            Some(held.map_err(|problem| broken(&library, &second, Some(problem)))?)
        }
        _ => None,
    };
    let answer = library.answer;
    Ok(Ran { answer, facts })
}

/// Both say and write the same, and nothing past it.
fn alike(library: &Lent, second: &Lent) -> Result<(), Broken> {
    let same = library.answer == second.answer && library.observations() == second.observations();
    let kept = |side: &Lent| side.buffer.written_past(side.size()).is_none();
    if same && kept(library) && kept(second) {
        return Ok(());
    }
    Err(broken(library, second, None))
}

/// What both say of a run, and what the demand says.
fn broken(library: &Lent, second: &Lent, demand: Option<String>) -> Broken {
    let place = first_difference(library.observations(), second.observations());
    Broken {
        unlike: Unlike {
            library: library.told(place),
            second: second.told(place),
        },
        demand,
    }
}

/// What a run says of itself.
fn claim(lent: &Lent) -> Claim<'_> {
    Claim {
        end: lent.answer.end,
        node: lent.answer.node,
        tick: lent.answer.tick,
        used: lent.answer.used,
        observations: lent.observations(),
    }
}
