//! The library's own call for a text, as `include/timed_network.h` declares it.
#![allow(unsafe_code)]

use crate::exported::CallNumbers;

extern "C" {
    fn timed_network_uppaal(
        table: *const u8,
        length: usize,
        text: *mut u8,
        text_length: usize,
    ) -> CallNumbers;
}

/// Writes the network of a table as a text.
pub(super) fn uppaal(table: &[u8], text: &mut [u8]) -> CallNumbers {
    // Each pointer and its length are those of one slice, and both slices stay
    // borrowed until the call returns; the text, borrowed to be changed, does not
    // overlap the table. The call reads inside the one, writes inside the other and
    // keeps no pointer; with length 0 it does not use the pointer.
    unsafe { timed_network_uppaal(table.as_ptr(), table.len(), text.as_mut_ptr(), text.len()) }
}
