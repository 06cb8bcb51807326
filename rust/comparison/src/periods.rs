//! What comes again, and runs to a horizon: both sides are asked for the pair, carry out
//! the same choices to the same horizon and are lent as many bytes.

mod subject;
mod tally;

pub use subject::Far;
pub use tally::Periods;

use crate::buffers::{first_difference, Buffer};
use crate::bytes::hex;
use crate::lists::Unlike;
use crate::readers::{Reader, Readers};
use crate::runs::Broken;
use demand::{Claim, Demand, Facts};
use timed_network::{Observation, Pair, RunToNumbers, Verdict, OBSERVATION};

/// What is handed to a run beside its table.
#[derive(Clone, Copy, Debug, PartialEq, Eq)]
pub struct Handed<'a> {
    /// The choices.
    pub choices: &'a [u8],
    /// The horizon.
    pub horizon: u32,
    /// How many bytes are lent.
    pub lent: usize,
}

/// What is said of a table: the pair, if there is one, or its refusal.
pub type Said = Result<Option<Pair>, Verdict>;

/// A pair as the vectors write it.
pub fn words(pair: &Said) -> String {
    match pair {
        Ok(Some(Pair { from, to })) => format!("{from} {to}"),
        Ok(None) => "none".to_string(),
        Err(refused) => refused.to_string(),
    }
}

/// Asks both for the pair of a table.
pub fn compare_pair(readers: &Readers, table: &[u8]) -> Result<Said, Unlike> {
    let library = (readers.library.period)(table);
    let second = (readers.second.period)(table);
    if library == second {
        return Ok(library);
    }
    Err(Unlike {
        library: words(&library),
        second: words(&second),
    })
}

/// A run's answer and the whole buffer after it.
pub struct Lent {
    /// What the call said.
    pub answer: RunToNumbers,
    buffer: Buffer,
}

impl Lent {
    /// Lends bytes to one.
    pub fn to(reader: &Reader, table: &[u8], handed: &Handed) -> Lent {
        let mut buffer = Buffer::new(handed.lent);
        let answer = (reader.run_to)(table, handed.choices, handed.horizon, buffer.lent());
        Lent { answer, buffer }
    }

    /// The observations written.
    pub fn observations(&self) -> &[u8] {
        self.buffer.first(OBSERVATION * self.answer.size as usize)
    }

    /// Where something was written past them.
    fn past(&self) -> Option<isize> {
        let size = OBSERVATION * self.answer.size as usize;
        self.buffer.written_past(size)
    }

    /// As the vectors write it.
    pub fn words(&self) -> String {
        let RunToNumbers {
            number,
            component,
            end,
            node,
            tick,
            used,
            size,
        } = self.answer;
        let mut told = match number {
            0 => format!("{end} {node} {tick} {used}"),
            _ => format!("refused {number} {component}"),
        };
        for bytes in self.observations().chunks(OBSERVATION) {
            told += &format!("|{}", hex(bytes));
        }
        if number != 0 && (end, node, tick, used, size) != (0, 255, 0, 0, 0) {
            told += &format!(", end {end}, node {node}, tick {tick}, used {used}, {size} written");
        }
        told
    }

    /// As the corpus has it: how it ended, then node, tick and finish tick of each
    /// observation, `-` for none.
    pub fn shown(&self) -> String {
        let answer = &self.answer;
        let (end, node, tick, used) = (answer.end, answer.node, answer.tick, answer.used);
        let mut told = format!("{end} {node} {tick} {used}");
        let (places, _) = self.observations().as_chunks();
        for shown in places.iter().map(Observation::from) {
            let finish = shown.previous_finish.map(|tick| tick.to_string());
            let finish = finish.unwrap_or("-".to_string());
            told += &format!("|{} {} {finish}", shown.component, shown.tick);
        }
        told
    }

    /// The answer, the observation in which it differs, and what is written past it.
    fn told(&self, place: Option<usize>) -> String {
        let mut told = format!("{:?}", self.answer);
        if let Some(place) = place {
            let number = place / OBSERVATION;
            let own = self.observations().chunks(OBSERVATION).nth(number);
            told += &format!(", observation {number} {:?}", own.map(hex));
        }
        if let Some(place) = self.past() {
            told += &format!(", written past the result at place {place}");
        }
        told
    }
}

/// A run on which both agree, and what it was found to have done where it was held to
/// demand 3.
pub struct Ran {
    /// The answer.
    pub answer: RunToNumbers,
    /// What it has done.
    pub facts: Option<Facts>,
}

/// Runs a table to a horizon on both sides, and holds the library's run to the demand of
/// that horizon, if there is one.
pub fn compare_run(
    readers: &Readers,
    table: &[u8],
    demand: Option<&Demand>,
    handed: &Handed,
) -> Result<Ran, Broken> {
    let library = Lent::to(&readers.library, table, handed);
    let second = Lent::to(&readers.second, table, handed);
    let broken = |demand: Option<String>| {
        let place = first_difference(library.observations(), second.observations());
        let (library, second) = (library.told(place), second.told(place));
        Broken {
            unlike: Unlike { library, second },
            demand,
        }
    };
    let same = library.answer == second.answer && library.observations() == second.observations();
    if !same || library.past().is_some() || second.past().is_some() {
        return Err(broken(None));
    }
    let answer = library.answer;
    let held = demand.filter(|_| answer.number == 0).map(|demand| {
        let claim = Claim {
            end: answer.end,
            node: answer.node,
            tick: answer.tick,
            used: answer.used as u32,
            observations: library.observations(),
        };
        demand.hold(handed.choices, &claim)
    });
    let facts = held.transpose().map_err(|problem| broken(Some(problem)))?;
    Ok(Ran { answer, facts })
}
