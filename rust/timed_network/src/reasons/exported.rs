//! The library's own call for the reasons of edges, as `include/timed_network.h`
//! declares it.
#![allow(unsafe_code)]

/// The answer of the call: a verdict's two numbers, the passage, and how many edges
/// are told, both 0 after a refusal.
#[repr(C)]
#[derive(Clone, Copy, Debug, PartialEq, Eq)]
pub(super) struct ReasonNumbers {
    pub(super) number: u8,
    pub(super) component: u8,
    pub(super) passage: u32,
    pub(super) size: u32,
}

extern "C" {
    fn timed_network_reasons(
        table: *const u8,
        length: usize,
        component: u32,
        tick: u32,
        told: *mut u8,
        told_length: usize,
    ) -> ReasonNumbers;
}

/// Writes why a component takes its edge at a tick.
pub(super) fn reasons(table: &[u8], component: u32, tick: u32, told: &mut [u8]) -> ReasonNumbers {
    // Each pointer and its length are those of one slice, and both slices stay
    // borrowed until the call returns; the bytes told, borrowed to be changed, do
    // not overlap the table. The call reads inside the one, writes inside the other
    // and keeps no pointer; with length 0 it does not use the pointer.
    unsafe {
        timed_network_reasons(
            table.as_ptr(),
            table.len(),
            component,
            tick,
            told.as_mut_ptr(),
            told.len(),
        )
    }
}

/// As a C compiler lays the header's struct out on x86-64.
#[cfg(test)]
mod tests {
    use super::*;
    use std::mem::{offset_of, size_of};

    #[test]
    fn the_answer_has_the_layout_of_the_header() {
        assert_eq!(size_of::<ReasonNumbers>(), 12);
        assert_eq!(offset_of!(ReasonNumbers, component), 1);
        assert_eq!(offset_of!(ReasonNumbers, passage), 4);
        assert_eq!(offset_of!(ReasonNumbers, size), 8);
    }
}
