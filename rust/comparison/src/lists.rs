//! Lists lent for a schedule. Each one is the middle of a buffer full of
//! numbers that no schedule has, and the whole buffer is compared afterwards:
//! what was written, what is past it, and what was never lent.

use crate::readers::{Reader, Readers};
use timed_network::{Call, FIELDS, MAX_PASSAGES};

/// The numbers that every schedule fits in, and a few more.
pub const AMPLE: usize = FIELDS * MAX_PASSAGES + 3;

/// The numbers before a lent list, and those behind it.
const MARGIN: usize = 9;

/// A number of the pattern. Its highest bit is set, and no number of a
/// schedule has that bit.
fn pattern(place: usize) -> u32 {
    (place as u32).wrapping_mul(2_654_435_761) | 1 << 31
}

/// A buffer of numbers with its middle to be lent.
pub struct Buffer {
    numbers: Vec<u32>,
}

impl Buffer {
    /// A buffer of which so many numbers are lent.
    pub fn new(length: usize) -> Buffer {
        let numbers = (0..length + 2 * MARGIN).map(pattern).collect();
        Buffer { numbers }
    }

    /// The lent numbers.
    pub fn lent(&mut self) -> &mut [u32] {
        let end = self.numbers.len() - MARGIN;
        &mut self.numbers[MARGIN..end]
    }

    /// The first passages of the list, so many of them.
    pub fn passages(&self, count: usize) -> Vec<&[u32]> {
        let list = &self.numbers[MARGIN..self.numbers.len() - MARGIN];
        list.chunks_exact(FIELDS).take(count).collect()
    }

    /// The first place at which the two buffers differ.
    pub fn differs_at(&self, other: &Buffer) -> Option<usize> {
        let mut pairs = self.numbers.iter().zip(&other.numbers);
        pairs.position(|(own, others)| own != others)
    }

    /// The number at such a place, and the place, counted from the first number
    /// of the list; nothing where there is none.
    pub fn told(&self, place: Option<usize>) -> String {
        let Some(place) = place else {
            return String::new();
        };
        let at = place as isize - MARGIN as isize;
        format!(", {} at place {at} of the list", self.numbers[place])
    }
}

/// A call and the whole buffer after it.
pub struct Lent {
    /// What the call said.
    pub call: Call,
    buffer: Buffer,
}

impl Lent {
    /// Lends a list of this length.
    pub fn to(reader: &Reader, table: &[u8], length: usize) -> Lent {
        let mut buffer = Buffer::new(length);
        let call = (reader.schedule)(table, buffer.lent());
        Lent { call, buffer }
    }

    /// The passages that the call says were written.
    pub fn passages(&self) -> Vec<&[u32]> {
        self.buffer.passages(self.call.size)
    }

    /// The call, and the number at a place of the buffer.
    fn told(&self, place: Option<usize>) -> String {
        let Call { verdict, size } = self.call;
        format!("{verdict}, {size} passages{}", self.buffer.told(place))
    }
}

/// What both sides say where they differ.
#[derive(Clone, Debug, PartialEq, Eq)]
pub struct Unlike {
    /// What the library says.
    pub library: String,
    /// What the second implementation says.
    pub second: String,
}

/// Lends a list of this length to both and compares answers and buffers.
pub fn compare(readers: &Readers, table: &[u8], length: usize) -> Result<Call, Unlike> {
    let library = Lent::to(&readers.library, table, length);
    let second = Lent::to(&readers.second, table, length);
    let place = library.buffer.differs_at(&second.buffer);
    if library.call == second.call && place.is_none() {
        return Ok(library.call);
    }
    Err(Unlike {
        library: library.told(place),
        second: second.told(place),
    })
}

/// The lengths of the lists that are lent for a schedule of so many passages,
/// after one of [`AMPLE`] numbers: as many numbers as it takes, one less, none,
/// and another one by turns.
pub fn lengths(passages: usize, turn: u64) -> [usize; 4] {
    let exact = FIELDS * passages;
    let others = [exact + 1, exact - FIELDS, exact + FIELDS, 6, exact / 2];
    let other = others[(turn % others.len() as u64) as usize];
    [exact, exact - 1, 0, other]
}

/// The length of a list that is lent for a refused table, by turns.
pub fn length_for_refused(turn: u64) -> usize {
    [AMPLE, 0, 20 * FIELDS, 1][(turn % 4) as usize]
}

#[cfg(test)]
mod tests {
    use super::*;
    use crate::readers::refused;
    use crate::tables::WORKED_EXAMPLE;
    use timed_network::Verdict;

    const NEEDED: usize = 56;

    fn readers(schedule: fn(&[u8], &mut [u32]) -> Call) -> Readers {
        let second = Reader::second();
        let library = Reader { schedule, ..second };
        Readers { library, second }
    }

    fn right(table: &[u8], list: &mut [u32]) -> Call {
        (Reader::second().schedule)(table, list)
    }

    #[test]
    fn lists_of_all_lengths_come_back_alike() {
        let readers = readers(right);
        for length in 0..NEEDED + 9 {
            let call = compare(&readers, &WORKED_EXAMPLE, length).unwrap();
            let accepted = call.verdict == Verdict::Accepted;
            assert_eq!(accepted, length >= NEEDED);
            assert!(accepted || call.verdict == refused(13, 255));
        }
    }

    /// Writes one number past the schedule.
    fn past(table: &[u8], list: &mut [u32]) -> Call {
        let call = right(table, list);
        if let Some(number) = list.get_mut(FIELDS * call.size) {
            *number = 0;
        }
        call
    }

    /// Writes the front of the list before it says that the list is short.
    fn hasty(table: &[u8], list: &mut [u32]) -> Call {
        let call = right(table, list);
        if call.size == 0 && !list.is_empty() {
            list[0] = 0;
        }
        call
    }

    /// Counts one passage too few.
    fn few(table: &[u8], list: &mut [u32]) -> Call {
        let call = right(table, list);
        let size = call.size.saturating_sub(1);
        Call { size, ..call }
    }

    #[test]
    fn wrong_lists_are_told() {
        let said = |schedule, length| compare(&readers(schedule), &WORKED_EXAMPLE, length);
        let told = said(past, NEEDED + 1).unwrap_err();
        let whole = "accepted, 8 passages, 0 at place 56 of the list";
        assert_eq!(told.library, whole);
        assert!(said(past, NEEDED).is_ok());
        let told = said(hasty, NEEDED - 1).unwrap_err();
        let short = "refused 13 255, 0 passages, 0 at place 0 of the list";
        assert_eq!(told.library, short);
        assert!(said(hasty, NEEDED).is_ok());
        let told = said(few, NEEDED).unwrap_err();
        assert_eq!(told.library, "accepted, 7 passages");
    }

    #[test]
    fn passages_are_those_of_the_call() {
        let lent = Lent::to(&Reader::second(), &WORKED_EXAMPLE, AMPLE);
        let passages = lent.passages();
        assert_eq!(passages.len(), 8);
        assert_eq!(passages[2], [0, 1, 1, 5, 8, 10, 255]);
    }
}
