//! Bytes lent for programs and observations. What is lent is the middle of a
//! buffer full of a pattern, and the whole buffer is looked at afterwards:
//! what was written, what is past it, and what was never lent.

/// The bytes before the lent ones, and those behind them.
const MARGIN: usize = 37;

/// A byte of the pattern.
fn pattern(place: usize) -> u8 {
    (place as u32).wrapping_mul(2_654_435_761).to_be_bytes()[0] | 1
}

/// A buffer with its middle to be lent.
pub struct Buffer {
    bytes: Vec<u8>,
}

impl Buffer {
    /// A buffer of which so many bytes are lent.
    pub fn new(length: usize) -> Buffer {
        let bytes = (0..length + 2 * MARGIN).map(pattern).collect();
        Buffer { bytes }
    }

    /// The lent bytes.
    pub fn lent(&mut self) -> &mut [u8] {
        let end = self.bytes.len() - MARGIN;
        &mut self.bytes[MARGIN..end]
    }

    /// The first lent bytes, so many of them, or as many as there are.
    pub fn first(&self, count: usize) -> &[u8] {
        let lent = &self.bytes[MARGIN..self.bytes.len() - MARGIN];
        &lent[..count.min(lent.len())]
    }

    /// A place of the buffer, counted from the first lent byte, at which
    /// something was written though only so many bytes should have been.
    pub fn written_past(&self, count: usize) -> Option<isize> {
        let kept = |place: &usize| {
            let result = MARGIN..MARGIN + count;
            result.contains(place) || self.bytes[*place] == pattern(*place)
        };
        let place = (0..self.bytes.len()).find(|place| !kept(place))?;
        Some(place as isize - MARGIN as isize)
    }
}

/// Where two byte strings differ first, if they do.
pub fn first_difference(one: &[u8], other: &[u8]) -> Option<usize> {
    if one == other {
        return None;
    }
    let place = one
        .iter()
        .zip(other)
        .position(|(own, others)| own != others);
    Some(place.unwrap_or(one.len().min(other.len())))
}

#[cfg(test)]
mod tests {
    use super::*;

    #[test]
    fn what_is_written_past_the_result_is_seen() {
        for (place, count) in [(0, 0), (5, 5), (9, 3), (3, 4)] {
            let mut buffer = Buffer::new(10);
            buffer.lent()[place] = 0;
            let seen = (place >= count).then_some(place as isize);
            assert_eq!(buffer.written_past(count), seen);
        }
        let mut buffer = Buffer::new(10);
        buffer.bytes[MARGIN - 1] = 0;
        assert_eq!(buffer.written_past(10), Some(-1));
        let mut buffer = Buffer::new(10);
        buffer.bytes[MARGIN + 10] = 0;
        assert_eq!(buffer.written_past(10), Some(10));
        assert_eq!(Buffer::new(10).written_past(0), None);
    }

    #[test]
    fn the_first_bytes_are_those_lent() {
        let mut buffer = Buffer::new(3);
        buffer.lent().copy_from_slice(&[7, 8, 9]);
        assert_eq!(buffer.first(2), [7, 8]);
        assert_eq!(buffer.first(4), [7, 8, 9]);
    }

    #[test]
    fn byte_strings_differ_where_they_differ() {
        assert_eq!(first_difference(&[1, 2], &[1, 2]), None);
        assert_eq!(first_difference(&[1, 2], &[1, 3]), Some(1));
        assert_eq!(first_difference(&[1, 2], &[1]), Some(1));
    }
}
