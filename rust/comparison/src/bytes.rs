//! Changes of a table's bytes, and its lengths put right or not.

use crate::layout::{Field, Part};
use std::ops::Range;

/// Where a table states its length.
pub const TOTAL: usize = 1;

/// Which lengths are put right after bytes were added or taken away.
#[derive(Clone, Copy, Debug, PartialEq, Eq)]
pub struct Lengths {
    /// The length of the table.
    pub total: bool,
    /// The length of the component that was changed.
    pub component: bool,
}

impl Lengths {
    /// The four ways.
    pub const ALL: [Lengths; 4] = [
        Lengths::new(true, true),
        Lengths::new(true, false),
        Lengths::new(false, true),
        Lengths::new(false, false),
    ];

    const fn new(total: bool, component: bool) -> Lengths {
        Lengths { total, component }
    }
}

/// A number of one or two bytes.
pub fn get(bytes: &[u8], field: &Field) -> u16 {
    let own = &bytes[field.at..field.at + field.width];
    own.iter().fold(0, |sum, byte| sum << 8 | u16::from(*byte))
}

/// Writes a number of one or two bytes; one byte takes its lower eight bits.
pub fn set(bytes: &mut [u8], field: &Field, value: u16) {
    if field.width == 2 {
        set_two(bytes, field.at, value);
    } else {
        bytes[field.at] = value as u8;
    }
}

/// The number of two bytes at this place.
pub fn two(bytes: &[u8], at: usize) -> u16 {
    u16::from_be_bytes([bytes[at], bytes[at + 1]])
}

/// Writes a number of two bytes at this place.
pub fn set_two(bytes: &mut [u8], at: usize, value: u16) {
    bytes[at..at + 2].copy_from_slice(&value.to_be_bytes());
}

/// Adds to the number of two bytes at this place, round the end if need be.
/// Where there are no two bytes any more nothing is done.
pub fn add_two(bytes: &mut [u8], at: usize, more: isize) {
    if at + 2 <= bytes.len() {
        let sum = two(bytes, at).wrapping_add(more as u16);
        set_two(bytes, at, sum);
    }
}

/// States the length that the table has. It must have 3 bytes.
pub fn state_length(bytes: &mut [u8]) {
    let length = bytes.len() as u16;
    set_two(bytes, TOTAL, length);
}

/// The bytes with those of a range replaced by others. The component starts
/// at the byte given; its length and the table's are put right or not.
pub fn replaced(
    bytes: &[u8],
    range: Range<usize>,
    with: &[u8],
    component: Option<usize>,
    lengths: Lengths,
) -> Vec<u8> {
    let more = with.len() as isize - range.len() as isize;
    let mut changed = [&bytes[..range.start], with, &bytes[range.end..]].concat();
    if lengths.total {
        add_two(&mut changed, TOTAL, more);
    }
    match component {
        Some(at) if lengths.component => add_two(&mut changed, at, more),
        _ => {}
    }
    changed
}

/// The bytes with a part standing there twice, and counted twice.
pub fn repeated(bytes: &[u8], part: &Part, lengths: Lengths) -> Vec<u8> {
    let own = &bytes[part.bytes.clone()];
    let end = part.bytes.end..part.bytes.end;
    let mut changed = replaced(bytes, end, own, part.component, lengths);
    changed[part.count_at] = changed[part.count_at].wrapping_add(1);
    changed
}

/// The bytes without a part, and without it counted.
pub fn left_out(bytes: &[u8], part: &Part, lengths: Lengths) -> Vec<u8> {
    let mut changed = replaced(bytes, part.bytes.clone(), &[], part.component, lengths);
    changed[part.count_at] = changed[part.count_at].wrapping_sub(1);
    changed
}

/// Bytes as hexadecimal digits, `-` for none.
pub fn hex(bytes: &[u8]) -> String {
    if bytes.is_empty() {
        return "-".to_string();
    }
    bytes.iter().map(|byte| format!("{byte:02x}")).collect()
}

/// The bytes that hexadecimal digits stand for, if they do.
pub fn unhex(text: &str) -> Option<Vec<u8>> {
    if text == "-" {
        return Some(Vec::new());
    }
    if !text.is_ascii() || !text.len().is_multiple_of(2) {
        return None;
    }
    let byte = |at| u8::from_str_radix(&text[at..at + 2], 16).ok();
    (0..text.len()).step_by(2).map(byte).collect()
}
