//! The library's calls for nodes that wake apart, as `include/timed_network.h`
//! declares them.
#![allow(unsafe_code)]

use crate::exported::{MeetingsNumbers, RunNumbers, VerdictNumbers};

/// The answer for the largest spread: a verdict's two numbers, and the spread,
/// 0 after a refusal.
#[repr(C)]
#[derive(Clone, Copy, Debug, PartialEq, Eq)]
pub(crate) struct SpreadNumbers {
    pub(crate) number: u8,
    pub(crate) component: u8,
    pub(crate) spread: u32,
}

extern "C" {
    fn timed_network_check_spread(table: *const u8, length: usize, spread: u32) -> VerdictNumbers;
    fn timed_network_largest_spread(table: *const u8, length: usize) -> SpreadNumbers;
    fn timed_network_meetings_spread(
        table: *const u8,
        length: usize,
        spread: u32,
        list: *mut u32,
        list_length: usize,
    ) -> MeetingsNumbers;
    fn timed_network_run_apart(
        table: *const u8,
        length: usize,
        choices: *const u8,
        choices_length: usize,
        spread: u32,
        offsets: *const u32,
        offsets_length: usize,
        observations: *mut u8,
        observations_length: usize,
    ) -> RunNumbers;
}

/// Tries a table at a spread.
pub(crate) fn check_spread(table: &[u8], spread: u32) -> VerdictNumbers {
    // Pointer and length are those of one slice, which stays borrowed until
    // the call returns. The call reads inside it, writes nothing and keeps no
    // pointer; with length 0 it does not read the pointer.
    unsafe { timed_network_check_spread(table.as_ptr(), table.len(), spread) }
}

/// Asks for the largest spread at which a table is accepted.
pub(crate) fn largest_spread(table: &[u8]) -> SpreadNumbers {
    // As for the check.
    unsafe { timed_network_largest_spread(table.as_ptr(), table.len()) }
}

/// Lists the windows that met at a spread.
pub(crate) fn meetings_spread(table: &[u8], spread: u32, list: &mut [u32]) -> MeetingsNumbers {
    // Each pointer and its length are those of one slice, and both slices stay
    // borrowed until the call returns; the list, borrowed to be changed, does
    // not overlap the table. The call reads inside the one, writes inside the
    // other and keeps no pointer; with length 0 it does not use the pointer.
    unsafe {
        timed_network_meetings_spread(
            table.as_ptr(),
            table.len(),
            spread,
            list.as_mut_ptr(),
            list.len(),
        )
    }
}

/// Runs a table under choices with an offset for each node.
pub(crate) fn run_apart(
    table: &[u8],
    choices: &[u8],
    spread: u32,
    offsets: &[u32],
    observations: &mut [u8],
) -> RunNumbers {
    // As for the meetings: the call reads inside the first three slices and
    // writes inside the fourth, which, borrowed to be changed, overlaps none
    // of them.
    unsafe {
        timed_network_run_apart(
            table.as_ptr(),
            table.len(),
            choices.as_ptr(),
            choices.len(),
            spread,
            offsets.as_ptr(),
            offsets.len(),
            observations.as_mut_ptr(),
            observations.len(),
        )
    }
}

#[cfg(test)]
mod tests {
    use super::*;
    use std::mem::{offset_of, size_of};

    /// As a C compiler lays the header's struct out on x86-64.
    #[test]
    fn the_answer_has_the_size_of_the_header() {
        assert_eq!(size_of::<SpreadNumbers>(), 8);
        assert_eq!(offset_of!(SpreadNumbers, component), 1);
        assert_eq!(offset_of!(SpreadNumbers, spread), 4);
    }

    #[test]
    fn a_refusal_gives_spread_0() {
        let answer = SpreadNumbers {
            number: 1,
            component: 255,
            spread: 0,
        };
        assert_eq!(largest_spread(&[]), answer);
    }
}
