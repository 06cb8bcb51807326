//! The library's own call for where components are at ticks, as
//! `include/timed_network.h` declares it.
#![allow(unsafe_code)]

/// The answer of the call: a verdict's two numbers, and how many passages were read, 0
/// after a refusal.
#[repr(C)]
#[derive(Clone, Copy, Debug, PartialEq, Eq)]
pub(super) struct PositionNumbers {
    pub(super) number: u8,
    pub(super) component: u8,
    pub(super) read: u32,
}

extern "C" {
    fn timed_network_positions(
        table: *const u8,
        length: usize,
        pairs: *const u32,
        pairs_length: usize,
        answers: *mut u8,
        answers_length: usize,
    ) -> PositionNumbers;
}

/// Writes where components are at ticks.
pub(super) fn positions(table: &[u8], pairs: &[u32], answers: &mut [u8]) -> PositionNumbers {
    // Each pointer and its length are those of one slice, and all slices stay borrowed
    // until the call returns; the answers, borrowed to be changed, overlap neither the
    // table nor the pairs. The call reads inside the two, writes inside the third and
    // keeps no pointer; with length 0 it does not use the pointer.
    unsafe {
        timed_network_positions(
            table.as_ptr(),
            table.len(),
            pairs.as_ptr(),
            pairs.len(),
            answers.as_mut_ptr(),
            answers.len(),
        )
    }
}

/// As a C compiler lays the header's struct out on x86-64.
#[cfg(test)]
mod tests {
    use super::*;
    use std::mem::{offset_of, size_of};

    #[test]
    fn the_answer_has_the_layout_of_the_header() {
        assert_eq!(size_of::<PositionNumbers>(), 8);
        assert_eq!(offset_of!(PositionNumbers, component), 1);
        assert_eq!(offset_of!(PositionNumbers, read), 4);
    }
}
