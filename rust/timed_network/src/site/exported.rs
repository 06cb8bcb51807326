//! The library's own calls for airtimes and sites, as `include/timed_network.h` declares
//! them.
#![allow(unsafe_code)]

/// The answer of the call `airtime` as the library gives it.
#[repr(C)]
#[derive(Clone, Copy, Debug, PartialEq, Eq)]
pub(super) struct AirtimeNumbers {
    pub(super) number: u8,
    pub(super) component: u8,
    pub(super) horizon: u16,
    pub(super) airtime: u32,
}

/// A site as the library has it, and what the last call said.
#[repr(C)]
#[derive(Clone, Copy, Debug, PartialEq, Eq)]
pub struct SiteNumbers {
    /// The limit.
    pub limit: u32,
    /// The horizon of the network in each place; 0 where there is none.
    pub horizons: [u16; 4],
    /// Its airtime; 0 where there is none.
    pub airtimes: [u32; 4],
    /// The airtime in use after the last call.
    pub in_use: u64,
    /// 0 if the last call was carried out, else the number of its refusal.
    pub number: u8,
    /// The component that a refusal concerns, 255 for none.
    pub component: u8,
}

extern "C" {
    fn timed_network_airtime(table: *const u8, length: usize) -> AirtimeNumbers;
    fn timed_network_site(limit: u32) -> SiteNumbers;
    fn timed_network_site_put(
        networks: *mut SiteNumbers,
        table: *const u8,
        length: usize,
        place: u8,
    );
    fn timed_network_site_take(networks: *mut SiteNumbers, place: u8);
}

/// The airtime of a table.
pub(super) fn airtime(table: &[u8]) -> AirtimeNumbers {
    // Pointer and length are those of one slice, which stays borrowed until the call
    // returns. The call reads inside it, writes nothing and keeps no pointer; with
    // length 0 it does not read the pointer.
    unsafe { timed_network_airtime(table.as_ptr(), table.len()) }
}

/// An empty site.
pub(super) fn site(limit: u32) -> SiteNumbers {
    // The call is handed a number and returns a struct.
    unsafe { timed_network_site(limit) }
}

/// Puts a table's network into a place.
pub(super) fn put(networks: &mut SiteNumbers, table: &[u8], place: u8) {
    // As for `airtime`; the site is lent to be changed, so that nothing else leads to it,
    // the table does not overlap it, and the call writes inside it alone.
    unsafe { timed_network_site_put(networks, table.as_ptr(), table.len(), place) }
}

/// Takes the network out of a place.
pub(super) fn take(networks: &mut SiteNumbers, place: u8) {
    // As for `put`, without a table.
    unsafe { timed_network_site_take(networks, place) }
}

/// As a C compiler lays the header's structs out on x86-64.
#[cfg(test)]
mod tests {
    use super::*;
    use std::mem::{align_of, offset_of, size_of};

    #[test]
    fn the_answer_has_the_layout_of_the_header() {
        assert_eq!(size_of::<AirtimeNumbers>(), 8);
        assert_eq!(offset_of!(AirtimeNumbers, component), 1);
        assert_eq!(offset_of!(AirtimeNumbers, horizon), 2);
        assert_eq!(offset_of!(AirtimeNumbers, airtime), 4);
    }

    #[test]
    fn the_site_has_the_layout_of_the_header() {
        assert_eq!(size_of::<SiteNumbers>(), 48);
        assert_eq!(align_of::<SiteNumbers>(), 8);
        assert_eq!(offset_of!(SiteNumbers, limit), 0);
        assert_eq!(offset_of!(SiteNumbers, horizons), 4);
        assert_eq!(offset_of!(SiteNumbers, airtimes), 12);
        assert_eq!(offset_of!(SiteNumbers, in_use), 32);
        assert_eq!(offset_of!(SiteNumbers, number), 40);
        assert_eq!(offset_of!(SiteNumbers, component), 41);
    }
}
