//! Why edges are taken: which components and ticks are asked about, what both say and
//! write, and what was counted of it.

mod tally;

pub use tally::Asked;

use crate::buffers::{first_difference, Buffer};
use crate::bytes::hex;
use crate::lists::Unlike;
use crate::random::Random;
use crate::readers::{Reader, Readers};
use timed_network::{Reason, Told, Verdict, FIELDS, REASON, REASONS_ENOUGH};

/// The bytes that every answer fits in, and a few more.
pub const AMPLE: usize = REASONS_ENOUGH + 4;
/// How many questions are drawn for a table.
const DRAWN: usize = 8;

/// What is asked about.
#[derive(Clone, Copy, Debug, PartialEq, Eq)]
pub struct Question {
    /// The component.
    pub component: u32,
    /// The tick.
    pub tick: u32,
}

/// Questions about an accepted table: any component, or the first that there is not,
/// at tick 0, at the last tick below the horizon, at the horizon, at the entry of a
/// passage, at its end or a tick before that; now and then any numbers.
pub fn drawn(random: &mut Random, passages: &[[u32; FIELDS]], horizon: u32) -> Vec<Question> {
    let most = passages.iter().map(|row| row[0]).max().unwrap_or(0);
    let mut question = || {
        let row = random.pick(passages);
        let [own, _, _, entry, _, end, _] = row;
        let other = random.within(0..=most as usize + 1) as u32;
        let ticks = [0, horizon - 1, horizon, entry, end - 1, end, entry];
        let any = random.number() as u32;
        match random.below(24) {
            0 => Question {
                component: own + 256 * (any >> 8),
                tick: entry,
            },
            1 => Question {
                component: own,
                tick: any,
            },
            _ => Question {
                component: random.pick(&[own, own, other]),
                tick: random.pick(&ticks),
            },
        }
    };
    (0..DRAWN).map(|_| question()).collect()
}

/// The length that is lent where so many edges are told, by turns.
pub fn length(edges: usize, turn: u64) -> usize {
    let exact = REASON * edges;
    let lengths = [0, exact.saturating_sub(1), exact, exact + 1];
    lengths[(turn % lengths.len() as u64) as usize]
}

/// What one says and writes.
#[derive(Clone, Debug, PartialEq, Eq)]
pub struct Answer {
    /// What it says.
    pub told: Told,
    /// The bytes of the edges told.
    pub written: Vec<u8>,
    /// Where something was written past them.
    past: Option<isize>,
}

impl Answer {
    /// Lends so many bytes to one.
    pub fn of(reader: &Reader, table: &[u8], question: &Question, length: usize) -> Answer {
        let mut buffer = Buffer::new(length);
        let told = (reader.reasons)(table, question.component, question.tick, buffer.lent());
        let bytes = REASON * told.size;
        Answer {
            told,
            written: buffer.first(bytes).to_vec(),
            past: buffer.written_past(bytes),
        }
    }

    /// The edges with their reasons; nothing where the bytes are none that there are.
    pub fn edges(&self) -> Option<Vec<(u8, Reason)>> {
        let edge = |bytes: &[u8]| {
            let reason = Reason::try_from([bytes[1], bytes[2]]).ok()?;
            Some((bytes[0], reason))
        };
        self.written.chunks_exact(REASON).map(edge).collect()
    }

    /// As the vectors write it, or, where bytes are wrong, in hexadecimal.
    pub fn words(&self) -> String {
        let Told {
            verdict,
            passage,
            size,
        } = self.told;
        let past = self.past.map_or(String::new(), |place| {
            format!(", something written at place {place}")
        });
        match (verdict, self.edges()) {
            (Verdict::Refused { .. }, _) if passage == 0 && size == 0 => format!("{verdict}{past}"),
            (Verdict::Accepted, Some(edges)) => {
                let edges: String = edges.iter().map(edge_words).collect();
                format!("{passage}{edges}{past}")
            }
            _ => format!(
                "{verdict}, passage {passage}, {size} edges: {}{past}",
                hex(&self.written)
            ),
        }
    }
}

/// An edge with its reason.
fn edge_words((edge, reason): &(u8, Reason)) -> String {
    let word = match reason {
        Reason::Taken => "taken".to_string(),
        Reason::DataBound(bound) => format!("data {bound}"),
        Reason::NoWindow => "window".to_string(),
        Reason::ReadyLater => "later".to_string(),
        Reason::HigherNumber => "higher".to_string(),
    };
    format!("|{edge} {word}")
}

/// Lends bytes of this length to both and compares what they say and write.
pub fn compare(
    readers: &Readers,
    table: &[u8],
    question: &Question,
    length: usize,
) -> Result<Answer, Unlike> {
    let library = Answer::of(&readers.library, table, question, length);
    let second = Answer::of(&readers.second, table, question, length);
    if library == second && library.past.is_none() {
        return Ok(library);
    }
    let place = first_difference(&library.written, &second.written);
    let at = place.map_or(String::new(), |place| format!(", unlike at byte {place}"));
    Err(Unlike {
        library: format!("{}{at}", library.words()),
        second: second.words(),
    })
}

#[cfg(test)]
mod tests {
    use super::*;
    use crate::readers::{refused, second_reasons};
    use crate::tables::WORKED_EXAMPLE;

    fn readers(reasons: fn(&[u8], u32, u32, &mut [u8]) -> Told) -> Readers {
        let second = Reader::second();
        let library = Reader { reasons, ..second };
        Readers { library, second }
    }

    const HUB: Question = Question {
        component: 1,
        tick: 6,
    };

    #[test]
    fn words_are_those_of_the_vectors() {
        let said = |question: &Question, length| {
            let answer = Answer::of(&Reader::second(), &WORKED_EXAMPLE, question, length);
            answer.words()
        };
        assert_eq!(said(&HUB, 3), "3|1 taken");
        assert_eq!(said(&HUB, 2), "refused 13 255");
        let late = Question { tick: 20, ..HUB };
        assert_eq!(said(&late, 0), "refused 21 255");
    }

    /// Writes one byte past the edges told.
    fn past(table: &[u8], component: u32, tick: u32, told: &mut [u8]) -> Told {
        let answer = second_reasons(table, component, tick, told);
        if let Some(byte) = told.get_mut(REASON * answer.size) {
            *byte = 0;
        }
        answer
    }

    #[test]
    fn wrong_bytes_are_told() {
        let said = |call, length| compare(&readers(call), &WORKED_EXAMPLE, &HUB, length);
        let right = said(second_reasons, 4).unwrap();
        assert_eq!((right.told.passage, right.written), (3, vec![1, 0, 255]));
        let told = said(past, 4).unwrap_err();
        assert_eq!(told.library, "3|1 taken, something written at place 3");
        assert_eq!(told.second, "3|1 taken");
        assert!(said(past, 3).is_ok());
        let told = said(past, 2).unwrap_err();
        assert_eq!(told.library, "refused 13 255, something written at place 0");
        let answer = said(second_reasons, 2).unwrap();
        assert_eq!(answer.told.verdict, refused(13, 255));
    }

    #[test]
    fn questions_of_all_kinds_are_drawn() {
        let passages = [[0, 0, 0, 0, 3, 5, 0], [1, 0, 0, 0, 2, 6, 0]];
        let mut random = Random::new(1);
        let many: Vec<Question> = (0..100)
            .flat_map(|_| drawn(&mut random, &passages, 20))
            .collect();
        for component in [0, 1, 2] {
            for tick in [0, 19, 20, 4, 5, 6] {
                assert!(many.contains(&Question { component, tick }));
            }
        }
        assert!(many.iter().any(|question| question.component >= 256));
        assert!(many.iter().any(|question| question.tick >= 65_536));
        assert_eq!([0, 1, 2, 3, 4].map(|turn| length(2, turn)), [0, 5, 6, 7, 0]);
    }
}
