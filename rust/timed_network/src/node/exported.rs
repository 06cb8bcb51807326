//! The library's calls of one node, as `include/timed_network.h` declares
//! them.
#![allow(unsafe_code)]

use super::Node;

extern "C" {
    fn timed_network_start(part: *const u8, length: usize) -> Node;
    fn timed_network_step(
        node: *mut Node,
        part: *const u8,
        length: usize,
        clocks: u8,
        variables: u8,
    );
    fn timed_network_take_message(node: *mut Node, part: *const u8, length: usize, channel: u8);
}

/// The registers at the start of a part.
pub(crate) fn start(part: &[u8]) -> Node {
    // Pointer and length are those of one slice, which stays borrowed until
    // the call returns. The call reads inside it, writes nothing and keeps no
    // pointer; with length 0 it does not read the pointer.
    unsafe { timed_network_start(part.as_ptr(), part.len()) }
}

/// One step.
pub(crate) fn step(node: &mut Node, part: &[u8], clocks: u8, variables: u8) {
    // The registers and the slice stay borrowed until the call returns; the
    // registers, borrowed to be changed, do not overlap the part. The call
    // reads inside the one, writes the other and keeps no pointer; with
    // length 0 it does not read the part's pointer.
    unsafe { timed_network_step(node, part.as_ptr(), part.len(), clocks, variables) }
}

/// A message taken.
pub(crate) fn take_message(node: &mut Node, part: &[u8], channel: u8) {
    // As for `step`.
    unsafe { timed_network_take_message(node, part.as_ptr(), part.len(), channel) }
}
