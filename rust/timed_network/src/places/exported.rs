//! The library's own calls for the place of a refusal and for the opening that
//! is refused, as `include/timed_network.h` declares them.
#![allow(unsafe_code)]

use crate::exported::Entry;

/// The place of a refusal as the library gives it.
#[repr(C)]
#[derive(Clone, Copy, Debug, PartialEq, Eq)]
pub(super) struct PlaceNumbers {
    pub(super) number: u8,
    pub(super) component: u8,
    pub(super) part: u8,
    pub(super) edge: u8,
    pub(super) index: u8,
    pub(super) unbounded: bool,
    pub(super) start: u32,
    pub(super) offset: u32,
    pub(super) width: u32,
    pub(super) value: u32,
    pub(super) least: u32,
    pub(super) limit: u32,
}

/// The opening that is refused as the library gives it.
#[repr(C)]
#[derive(Clone, Copy, Debug, PartialEq, Eq)]
pub(super) struct OpeningNumbers {
    pub(super) number: u8,
    pub(super) component: u8,
    pub(super) leaving: u8,
    pub(super) blocked: u8,
    pub(super) windowless: u8,
    pub(super) edge: u8,
    pub(super) update: u8,
    pub(super) passage: u32,
    pub(super) tick: u32,
    pub(super) entry: Entry,
}

extern "C" {
    fn timed_network_refusal_place(table: *const u8, length: usize) -> PlaceNumbers;
    fn timed_network_refused_opening(table: *const u8, length: usize) -> OpeningNumbers;
}

/// Asks where checks 4 to 6 stop.
pub(super) fn refusal_place(table: &[u8]) -> PlaceNumbers {
    // Pointer and length are those of one slice, which stays borrowed until
    // the call returns. The call reads inside it, writes nothing and keeps no
    // pointer; with length 0 it does not read the pointer. The answer's
    // `unbounded` is always a bool.
    unsafe { timed_network_refusal_place(table.as_ptr(), table.len()) }
}

/// Asks at which opening checks 7 to 9 stop.
pub(super) fn refused_opening(table: &[u8]) -> OpeningNumbers {
    // As for the place.
    unsafe { timed_network_refused_opening(table.as_ptr(), table.len()) }
}

/// As a C compiler lays the header's structs out on x86-64.
#[cfg(test)]
mod tests {
    use super::*;
    use std::mem::{offset_of, size_of};

    #[test]
    fn the_answers_have_the_layout_of_the_header() {
        assert_eq!(size_of::<OpeningNumbers>(), 44);
        assert_eq!(offset_of!(OpeningNumbers, update), 6);
        assert_eq!(offset_of!(OpeningNumbers, passage), 8);
        assert_eq!(offset_of!(OpeningNumbers, entry), 16);
        assert_eq!(size_of::<PlaceNumbers>(), 32);
        assert_eq!(offset_of!(PlaceNumbers, unbounded), 5);
        assert_eq!(offset_of!(PlaceNumbers, start), 8);
        assert_eq!(offset_of!(PlaceNumbers, limit), 28);
    }
}
