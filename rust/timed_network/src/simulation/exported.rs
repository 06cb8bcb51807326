//! The library's own calls for simulated runs, as `include/timed_network.h` declares
//! them.
#![allow(unsafe_code)]

/// The answer of a simulation as the library gives it.
#[repr(C)]
#[derive(Clone, Copy, Debug, PartialEq, Eq)]
pub struct SimulationNumbers {
    /// 0 if the runs took place, else the number of the refusal.
    pub number: u8,
    /// The component that a refusal concerns, 255 for none.
    pub component: u8,
    /// The runs that ended late; 0 after a refusal.
    pub late: u32,
    /// For each node those of them in which it was the lowest late one; 0 for nodes that
    /// the table does not have, and after a refusal.
    pub nodes: [u32; 8],
    /// The generator after the last run; 0 after a refusal.
    pub state: u32,
}

extern "C" {
    fn timed_network_simulate(
        table: *const u8,
        length: usize,
        lo: u32,
        hi: u32,
        runs: u32,
    ) -> SimulationNumbers;
    fn timed_network_simulate_from(
        table: *const u8,
        length: usize,
        lo: u32,
        hi: u32,
        runs: u32,
        seed: u32,
    ) -> SimulationNumbers;
}

/// Simulates runs from the fixed seed.
pub(super) fn simulate(table: &[u8], [lo, hi]: [u32; 2], runs: u32) -> SimulationNumbers {
    // Pointer and length are those of one slice, which stays borrowed until the call
    // returns. The call reads inside it, writes nothing and keeps no pointer; with
    // length 0 it does not read the pointer.
    unsafe { timed_network_simulate(table.as_ptr(), table.len(), lo, hi, runs) }
}

/// Simulates runs from a seed.
pub(super) fn simulate_from(
    table: &[u8],
    [lo, hi]: [u32; 2],
    runs: u32,
    seed: u32,
) -> SimulationNumbers {
    // As for `simulate`.
    unsafe { timed_network_simulate_from(table.as_ptr(), table.len(), lo, hi, runs, seed) }
}

/// As a C compiler lays the header's struct out on x86-64.
#[cfg(test)]
mod tests {
    use super::*;
    use std::mem::{offset_of, size_of};

    #[test]
    fn the_answer_has_the_layout_of_the_header() {
        assert_eq!(size_of::<SimulationNumbers>(), 44);
        assert_eq!(offset_of!(SimulationNumbers, component), 1);
        assert_eq!(offset_of!(SimulationNumbers, late), 4);
        assert_eq!(offset_of!(SimulationNumbers, nodes), 8);
        assert_eq!(offset_of!(SimulationNumbers, state), 40);
    }
}
