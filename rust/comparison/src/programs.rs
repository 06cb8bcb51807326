//! Programs, their parts, charts and plans: what both write into lent bytes, and
//! what both find for a node's number.

use crate::buffers::{first_difference, Buffer};
use crate::bytes::hex;
use crate::lists::Unlike;
use crate::readers::Readers;
use timed_network::{Call, Slots, Verdict};

/// The numbers for which a part is asked: those of nodes, and a few more.
pub const NODES: [u8; 11] = [0, 1, 2, 3, 4, 5, 6, 7, 8, 9, 255];

/// A call and the whole buffer after it.
struct Lent {
    call: Call,
    buffer: Buffer,
}

impl Lent {
    fn to(writes: impl Fn(&mut [u8]) -> Call, length: usize) -> Lent {
        let mut buffer = Buffer::new(length);
        let call = writes(buffer.lent());
        Lent { call, buffer }
    }

    /// What was written, as far as the call says that it was.
    fn written(&self) -> &[u8] {
        self.buffer.first(self.call.size)
    }

    fn told(&self, place: Option<usize>) -> String {
        let Call { verdict, size } = self.call;
        let mut text = format!("{verdict}, {size} bytes");
        if let Some(place) = place {
            let near = &self.written()[place.min(self.written().len())..];
            text += &format!(", from byte {place} on {}", hex(&near[..near.len().min(8)]));
        }
        if let Some(place) = self.buffer.written_past(size) {
            text += &format!(", written past the result at place {place}");
        }
        text
    }
}

/// Lends bytes of this length to both and compares answers and bytes; the
/// program, if there is one.
pub fn compare(
    readers: &Readers,
    table: &[u8],
    length: usize,
) -> Result<(Verdict, Vec<u8>), Unlike> {
    let calls = [readers.library.translate, readers.second.translate];
    compare_written(
        calls.map(|call| move |out: &mut [u8]| call(table, out)),
        length,
    )
}

/// The same for the chart.
pub fn compare_chart(
    readers: &Readers,
    table: &[u8],
    length: usize,
) -> Result<(Verdict, Vec<u8>), Unlike> {
    let calls = [readers.library.timing_chart, readers.second.timing_chart];
    compare_written(
        calls.map(|call| move |out: &mut [u8]| call(table, out)),
        length,
    )
}

/// The same for the table of a plan.
pub fn compare_plan(
    readers: &Readers,
    slots: Slots,
    length: usize,
) -> Result<(Verdict, Vec<u8>), Unlike> {
    let calls = [readers.library.plan, readers.second.plan];
    compare_written(
        calls.map(|call| move |out: &mut [u8]| call(slots, out)),
        length,
    )
}

/// The same for any two calls that write bytes.
pub(crate) fn compare_written(
    calls: [impl Fn(&mut [u8]) -> Call; 2],
    length: usize,
) -> Result<(Verdict, Vec<u8>), Unlike> {
    let [library, second] = calls.map(|writes| Lent::to(writes, length));
    let place = first_difference(library.written(), second.written());
    let sides = [&library, &second];
    let kept = |side: &&Lent| side.buffer.written_past(side.call.size).is_none();
    if library.call == second.call && place.is_none() && sides.iter().all(kept) {
        return Ok((library.call.verdict, library.written().to_vec()));
    }
    Err(Unlike {
        library: library.told(place),
        second: second.told(place),
    })
}

/// The lengths of the bytes that are lent for a result of this length: it
/// and a few more, one less, and another one by turns.
pub fn lengths(exact: usize, turn: u64) -> [usize; 3] {
    let more = [1, 0, 4, 0, 300][(turn % 5) as usize];
    let others = [0, 6, exact / 2, exact - 4, 5, exact + 70, 1];
    let other = others[(turn % others.len() as u64) as usize];
    [exact + more, exact - 1, other]
}

/// The length of the bytes that are lent for a refused table, by turns.
pub fn length_for_refused(turn: u64) -> usize {
    [2000, 0, 300, 6][(turn % 4) as usize]
}

/// Where a part stands in its program, and its length.
fn place(program: &[u8], part: &[u8]) -> (usize, usize) {
    let start = (part.as_ptr() as usize).wrapping_sub(program.as_ptr() as usize);
    (start, part.len())
}

/// Compares the parts that both find for a node's number. They must stand at
/// the same place. Whether there is one.
pub fn compare_part(readers: &Readers, program: &[u8], node: u8) -> Result<bool, Unlike> {
    let library = place(program, (readers.library.part)(program, node));
    let second = place(program, (readers.second.part)(program, node));
    if library == second {
        return Ok(library.1 > 0);
    }
    let told = |(start, length)| format!("{length} bytes from byte {start} on");
    Err(Unlike {
        library: told(library),
        second: told(second),
    })
}

#[cfg(test)]
mod tests {
    use super::*;
    use crate::readers::{refused, second_part, Reader};
    use crate::tables::WORKED_EXAMPLE;

    const NEEDED: usize = 246;

    fn readers(library: Reader) -> Readers {
        let second = Reader::second();
        Readers { library, second }
    }

    fn translating(translate: fn(&[u8], &mut [u8]) -> Call) -> Readers {
        let second = Reader::second();
        readers(Reader {
            translate,
            ..second
        })
    }

    fn right(table: &[u8], bytes: &mut [u8]) -> Call {
        (Reader::second().translate)(table, bytes)
    }

    #[test]
    fn bytes_of_all_lengths_come_back_alike() {
        let readers = translating(right);
        for length in 0..NEEDED + 9 {
            let (verdict, program) = compare(&readers, &WORKED_EXAMPLE, length).unwrap();
            let accepted = verdict == Verdict::Accepted;
            assert_eq!(accepted, length >= NEEDED);
            assert_eq!(program.len(), if accepted { NEEDED } else { 0 });
            assert!(accepted || verdict == refused(13, 255));
        }
    }

    /// Writes one byte past the program.
    fn past(table: &[u8], bytes: &mut [u8]) -> Call {
        let call = right(table, bytes);
        if let Some(byte) = bytes.get_mut(call.size) {
            *byte = 0;
        }
        call
    }

    /// Writes another byte than the right one.
    fn wrong(table: &[u8], bytes: &mut [u8]) -> Call {
        let call = right(table, bytes);
        if call.size > 0 {
            bytes[34] = 1;
        }
        call
    }

    #[test]
    fn wrong_programs_are_told() {
        let said = |translate, length| compare(&translating(translate), &WORKED_EXAMPLE, length);
        let told = said(past, NEEDED + 1).unwrap_err().library;
        assert_eq!(
            told,
            "accepted, 246 bytes, written past the result at place 246"
        );
        assert!(said(past, NEEDED).is_ok());
        let told = said(past, NEEDED - 1).unwrap_err().library;
        assert_eq!(
            told,
            "refused 13 255, 0 bytes, written past the result at place 0"
        );
        let told = said(wrong, NEEDED).unwrap_err();
        let (from, rest) = ("accepted, 246 bytes, from byte 34 on ", "00100000000a00");
        assert_eq!(told.library, format!("{from}01{rest}"));
        assert_eq!(told.second, format!("{from}00{rest}"));
    }

    #[test]
    fn parts_have_to_stand_at_their_place() {
        let program = [9, 9, 9, 2, 9, 9, 0, 2, 0, 2];
        let alike = readers(Reader::second());
        let found = [0, 1, 2].map(|node| compare_part(&alike, &program, node));
        assert_eq!(found, [Ok(true), Ok(true), Ok(false)]);
        let first = Reader {
            part: |program, _| second_part(program, 0),
            ..Reader::second()
        };
        assert_eq!(compare_part(&readers(first), &program, 0), Ok(true));
        let told = compare_part(&readers(first), &program, 1).unwrap_err();
        assert_eq!(told.library, "2 bytes from byte 6 on");
        assert_eq!(told.second, "2 bytes from byte 8 on");
    }
}
