//! Where components are at ticks: which pairs are asked, what both say and write, and
//! what was counted of it.

mod pairs;
mod tally;

pub use pairs::{around, count, damaged, damaged_twice, drawn, length};
pub use tally::Located;

use crate::buffers::{first_difference, Buffer};
use crate::bytes::hex;
use crate::lists::Unlike;
use crate::readers::{Reader, Readers};
use timed_network::{Positioned, Verdict, POSITION};

/// What one says and writes.
#[derive(Clone, Debug, PartialEq, Eq)]
pub struct Answer {
    /// What it says.
    pub told: Positioned,
    /// The bytes of the answers.
    pub written: Vec<u8>,
    /// Where something was written past them.
    past: Option<isize>,
}

impl Answer {
    /// Lends so many bytes to one.
    pub fn of(reader: &Reader, table: &[u8], numbers: &[u32], length: usize) -> Answer {
        let mut buffer = Buffer::new(length);
        let told = (reader.positions)(table, numbers, buffer.lent());
        let bytes = match told.verdict {
            Verdict::Accepted => (POSITION * (numbers.len() / 2)).min(length),
            Verdict::Refused { .. } => 0,
        };
        Answer {
            told,
            written: buffer.first(bytes).to_vec(),
            past: buffer.written_past(bytes),
        }
    }

    /// As the vectors write it.
    pub fn words(&self) -> String {
        let Positioned { verdict, read } = self.told;
        let past = self.past.map_or(String::new(), |place| {
            format!(", something written at place {place}")
        });
        match verdict {
            Verdict::Refused { .. } if read == 0 => format!("{verdict}{past}"),
            Verdict::Refused { .. } => format!("{verdict}, read {read}{past}"),
            Verdict::Accepted if self.written.is_empty() => format!("{read}|-{past}"),
            Verdict::Accepted => format!("{read}|{}{past}", hex(&self.written)),
        }
    }
}

/// Asks both with so many bytes lent.
pub fn compare(
    readers: &Readers,
    table: &[u8],
    numbers: &[u32],
    length: usize,
) -> Result<Answer, Unlike> {
    let library = Answer::of(&readers.library, table, numbers, length);
    let second = Answer::of(&readers.second, table, numbers, length);
    let place = first_difference(&library.written, &second.written);
    if library.told == second.told && place.is_none() && library.past == second.past {
        return Ok(library);
    }
    let at = place.map_or(String::new(), |place| {
        format!(" (pair {})", place / POSITION)
    });
    Err(Unlike {
        library: library.words() + &at,
        second: second.words() + &at,
    })
}

#[cfg(test)]
mod tests {
    use super::*;
    use crate::readers::second_positions;
    use crate::tables::WORKED_EXAMPLE;

    fn readers(positions: crate::readers::Positions) -> Readers {
        let second = Reader::second();
        let library = Reader {
            positions,
            ..second
        };
        Readers { library, second }
    }

    /// Writes one byte past the answers.
    fn past(table: &[u8], numbers: &[u32], answers: &mut [u8]) -> Positioned {
        let told = second_positions(table, numbers, answers);
        let written = match told.verdict {
            Verdict::Accepted => POSITION * (numbers.len() / 2),
            Verdict::Refused { .. } => 0,
        };
        if let Some(byte) = answers.get_mut(written) {
            *byte = 0;
        }
        told
    }

    #[test]
    fn wrong_bytes_are_told() {
        let pairs = [0, 5, 1, 6];
        let said = |call, length| compare(&readers(call), &WORKED_EXAMPLE, &pairs, length);
        let right = said(second_positions, 6).unwrap();
        assert_eq!(
            (right.told.read, right.written),
            (4, vec![0, 2, 0, 0, 3, 0])
        );
        let told = said(past, 7).unwrap_err();
        assert_eq!(told.library, "4|000200000300, something written at place 6");
        assert_eq!(told.second, "4|000200000300");
        assert!(said(past, 6).is_ok());
        let told = said(past, 5).unwrap_err();
        assert_eq!(told.library, "refused 13 255, something written at place 0");
        assert_eq!(told.second, "refused 13 255");
    }
}
