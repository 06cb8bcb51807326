//! "The part of the program bytes that belongs to one node".

use crate::read::two;
use std::ops::Range;

/// The bytes of a program's header.
const HEADER: usize = 6;

/// Where the part of one node stands in any bytes: "a number without a node,
/// or a header or length that runs out of the bytes, gives an empty part",
/// which is 0 to 0 here.
///
/// ```
/// let program = [1, 0, 9, 1, 0, 20, 0, 3, 5];
/// assert_eq!(yardstick::part(&program, 0), 6..9);
/// assert_eq!(yardstick::part(&program, 1), 0..0);
/// ```
pub fn part(program: &[u8], node: u8) -> Range<usize> {
    find(program, node).unwrap_or_default()
}

fn find(program: &[u8], node: u8) -> Option<Range<usize>> {
    let &[_, _, _, count, _, _] = program.first_chunk::<HEADER>()?;
    if node >= count {
        return None;
    }
    let mut start = HEADER;
    for _ in 0..node {
        start += stated_length(program, start)?;
    }
    let end = start + stated_length(program, start)?;
    (end <= program.len()).then_some(start..end)
}

/// The length that stands at a place, if it lies within the bytes.
#[inline]
fn stated_length(program: &[u8], at: usize) -> Option<usize> {
    let &[high, low] = program.get(at..)?.first_chunk()?;
    Some(two(high, low).into())
}
