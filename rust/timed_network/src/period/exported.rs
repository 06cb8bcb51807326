//! The library's calls for what comes again and for runs to a horizon, as
//! `include/timed_network.h` declares them.
#![allow(unsafe_code)]

/// The answer for the pair: a verdict's two numbers, whether there is one, and its two
/// ticks, 0 where there is none.
#[repr(C)]
#[derive(Clone, Copy, Debug, PartialEq, Eq)]
pub(crate) struct PeriodNumbers {
    pub(crate) number: u8,
    pub(crate) component: u8,
    pub(crate) found: bool,
    pub(crate) from: u32,
    pub(crate) to: u32,
}

/// The answer of a run to a horizon as the library gives it.
#[repr(C)]
#[derive(Clone, Copy, Debug, PartialEq, Eq)]
pub struct RunToNumbers {
    /// 0 if the run took place, else the number of the refusal.
    pub number: u8,
    /// The component that a refusal concerns, 255 for none.
    pub component: u8,
    /// How the run ended, 0 to 3; 0 after a refusal.
    pub end: u8,
    /// The lowest late node; 255 with every other end and after a refusal.
    pub node: u8,
    /// The ticks that have passed; 0 after a refusal.
    pub tick: u32,
    /// The choices carried out; 0 after a refusal.
    pub used: u64,
    /// The observations written; 0 after a refusal.
    pub size: u64,
}

extern "C" {
    fn timed_network_period(table: *const u8, length: usize) -> PeriodNumbers;
    fn timed_network_run_to(
        table: *const u8,
        length: usize,
        choices: *const u8,
        choices_length: usize,
        horizon: u32,
        observations: *mut u8,
        observations_length: usize,
    ) -> RunToNumbers;
}

/// Asks from when to when everything comes again.
pub(crate) fn period(table: &[u8]) -> PeriodNumbers {
    // Pointer and length are those of one slice, which stays borrowed until the call
    // returns. The call reads inside it, writes nothing and keeps no pointer; with
    // length 0 it does not read the pointer. The answer's `found` is always a bool.
    unsafe { timed_network_period(table.as_ptr(), table.len()) }
}

/// Runs a table under choices to a horizon.
pub(crate) fn run_to(
    table: &[u8],
    choices: &[u8],
    horizon: u32,
    observations: &mut [u8],
) -> RunToNumbers {
    // Each pointer and its length are those of one slice, and all slices stay borrowed
    // until the call returns. It reads inside the first two and writes inside the third,
    // which, borrowed to be changed, overlaps neither; it keeps no pointer, and with
    // length 0 it does not use the pointer.
    unsafe {
        timed_network_run_to(
            table.as_ptr(),
            table.len(),
            choices.as_ptr(),
            choices.len(),
            horizon,
            observations.as_mut_ptr(),
            observations.len(),
        )
    }
}

/// As a C compiler lays the header's structs out on x86-64.
#[cfg(test)]
mod tests {
    use super::*;
    use std::mem::{align_of, offset_of, size_of};

    #[test]
    fn the_pair_has_the_layout_of_the_header() {
        assert_eq!(size_of::<PeriodNumbers>(), 12);
        assert_eq!(offset_of!(PeriodNumbers, component), 1);
        assert_eq!(offset_of!(PeriodNumbers, found), 2);
        assert_eq!(offset_of!(PeriodNumbers, from), 4);
        assert_eq!(offset_of!(PeriodNumbers, to), 8);
    }

    #[test]
    fn the_run_has_the_layout_of_the_header() {
        assert_eq!(size_of::<RunToNumbers>(), 24);
        assert_eq!(align_of::<RunToNumbers>(), 8);
        assert_eq!(offset_of!(RunToNumbers, component), 1);
        assert_eq!(offset_of!(RunToNumbers, end), 2);
        assert_eq!(offset_of!(RunToNumbers, node), 3);
        assert_eq!(offset_of!(RunToNumbers, tick), 4);
        assert_eq!(offset_of!(RunToNumbers, used), 8);
        assert_eq!(offset_of!(RunToNumbers, size), 16);
    }

    #[test]
    fn a_refusal_gives_no_pair() {
        let answer = PeriodNumbers {
            number: 1,
            component: 255,
            found: false,
            from: 0,
            to: 0,
        };
        assert_eq!(period(&[]), answer);
    }
}
