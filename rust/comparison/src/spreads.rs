//! Verdicts at a spread, the largest spread and the windows that met: what both
//! say and list, and what was counted of it.

mod tally;

pub use tally::Spreads;

use crate::lists::{Buffer, Unlike};
use crate::readers::{Reader, Readers};
use timed_network::{Meetings, Verdict, FIELDS, MAX_PASSAGES};

/// The numbers that every list of windows that met fits in, and a few more.
pub const AMPLE: usize = FIELDS * (MAX_PASSAGES + 1) + 3;

/// What both say of a table at a spread.
pub fn compare_check(readers: &Readers, table: &[u8], spread: u32) -> Result<Verdict, Unlike> {
    let [library, second] = [readers.library, readers.second];
    let said = |reader: Reader| (reader.check_spread)(table, spread);
    alike(said(library), said(second), Verdict::to_string)
}

/// Up to which spread both accept a table.
pub fn compare_largest(readers: &Readers, table: &[u8]) -> Result<Result<u32, Verdict>, Unlike> {
    let [library, second] = [readers.library, readers.second];
    let said = |reader: Reader| (reader.largest_spread)(table);
    alike(said(library), said(second), |said| match said {
        Ok(spread) => spread.to_string(),
        Err(refused) => refused.to_string(),
    })
}

/// What both say, if it is the same.
fn alike<T: PartialEq>(library: T, second: T, told: impl Fn(&T) -> String) -> Result<T, Unlike> {
    if library == second {
        return Ok(library);
    }
    Err(Unlike {
        library: told(&library),
        second: told(&second),
    })
}

/// Lends a list of this length to both and compares answers and buffers. No
/// spread stands for the call without one.
pub fn compare_meetings(
    readers: &Readers,
    table: &[u8],
    spread: Option<u32>,
    length: usize,
) -> Result<Meetings, Unlike> {
    let lent = |reader: &Reader| {
        let mut buffer = Buffer::new(length);
        let answer = match spread {
            Some(spread) => (reader.meetings_spread)(table, spread, buffer.lent()),
            None => (reader.meetings)(table, buffer.lent()),
        };
        (answer, buffer)
    };
    let [(library, own), (second, others)] = [lent(&readers.library), lent(&readers.second)];
    let place = own.differs_at(&others);
    if library == second && place.is_none() {
        return Ok(library);
    }
    let told = |answer: &Meetings, buffer: &Buffer| {
        let Meetings {
            table,
            verdict,
            size,
        } = answer;
        let number = buffer.told(place);
        format!("of the table {table}, of the list {verdict}, {size} passages{number}")
    };
    Err(Unlike {
        library: told(&library, &own),
        second: told(&second, &others),
    })
}

/// The length of the list that is lent for so many passages, by turns: as many
/// numbers as they take, one less, and others.
pub fn length(passages: usize, turn: u64) -> usize {
    let exact = FIELDS * passages;
    let few = exact.saturating_sub(1);
    let lengths = [
        exact,
        few,
        exact + 1,
        0,
        exact,
        few,
        exact + FIELDS,
        exact / 2,
    ];
    lengths[(turn % lengths.len() as u64) as usize]
}

#[cfg(test)]
mod tests {
    use super::*;
    use crate::readers::{refused, second_meetings_spread};
    use crate::tables::WORKED_EXAMPLE;

    fn readers(meetings_spread: fn(&[u8], u32, &mut [u32]) -> Meetings) -> Readers {
        let second = Reader::second();
        let library = Reader {
            meetings_spread,
            ..second
        };
        Readers { library, second }
    }

    /// Writes one number past the list.
    fn past(table: &[u8], spread: u32, list: &mut [u32]) -> Meetings {
        let answer = second_meetings_spread(table, spread, list);
        if let Some(number) = list.get_mut(FIELDS * answer.size) {
            *number = 0;
        }
        answer
    }

    /// Lists one passage too few.
    fn few(table: &[u8], spread: u32, list: &mut [u32]) -> Meetings {
        let answer = second_meetings_spread(table, spread, list);
        let size = answer.size.saturating_sub(1);
        Meetings { size, ..answer }
    }

    #[test]
    fn wrong_lists_are_told() {
        let said =
            |call, length| compare_meetings(&readers(call), &WORKED_EXAMPLE, Some(1), length);
        let right = said(second_meetings_spread, 2 * FIELDS).unwrap();
        assert_eq!((right.table, right.size), (refused(16, 0), 2));
        let told = said(past, 2 * FIELDS + 1).unwrap_err();
        let whole = "of the table refused 16 0, of the list accepted, 2 passages, \
                     0 at place 14 of the list";
        assert_eq!(told.library, whole);
        assert!(said(past, 2 * FIELDS).is_ok());
        let told = said(few, 2 * FIELDS).unwrap_err();
        assert!(told.library.ends_with("accepted, 1 passages"));
    }

    #[test]
    fn lists_of_all_lengths_are_lent() {
        let all: Vec<usize> = (0..8).map(|turn| length(2, turn)).collect();
        assert_eq!(all, [14, 13, 15, 0, 14, 13, 21, 7]);
        assert!((0..8).all(|turn| length(0, turn) <= FIELDS));
    }
}
