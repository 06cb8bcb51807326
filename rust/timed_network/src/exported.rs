//! The library's own calls, as `include/timed_network.h` declares them. All
//! code that the compiler cannot vouch for stands in this module, in
//! `node::exported`, in `period::exported`, in `places::exported`, in
//! `positions::exported`, in `reasons::exported`, in `simulation::exported`, in
//! `site::exported`, in `spread::exported` and in `uppaal::exported`.
#![allow(unsafe_code)]

/// A verdict as two numbers: 0 for accepted, else the number of the refusal;
/// and the component concerned, 255 for none.
#[repr(C)]
#[derive(Clone, Copy, Debug, PartialEq, Eq)]
pub(crate) struct VerdictNumbers {
    pub(crate) number: u8,
    pub(crate) component: u8,
}

/// The answer of a call that writes: a verdict's two numbers, and how many
/// passages or bytes were written, 0 after a refusal.
#[repr(C)]
#[derive(Clone, Copy, Debug, PartialEq, Eq)]
pub(crate) struct CallNumbers {
    pub(crate) number: u8,
    pub(crate) component: u8,
    pub(crate) size: u32,
}

/// The answer of `meetings`: the call's own two numbers, the two of the
/// verdict on the table, and how many passages are listed.
#[repr(C)]
#[derive(Clone, Copy, Debug, PartialEq, Eq)]
pub(crate) struct MeetingsNumbers {
    pub(crate) number: u8,
    pub(crate) component: u8,
    pub(crate) refusal: u8,
    pub(crate) concerned: u8,
    pub(crate) size: u32,
}

/// Where a part stands: its first byte and its length, both 0 for none.
#[repr(C)]
#[derive(Clone, Copy, Debug, PartialEq, Eq)]
pub(crate) struct PartNumbers {
    pub(crate) start: usize,
    pub(crate) length: usize,
}

/// The answer of a run as the library gives it.
#[repr(C)]
#[derive(Clone, Copy, Debug, PartialEq, Eq)]
pub struct RunNumbers {
    /// 0 if the run took place, else the number of the refusal.
    pub number: u8,
    /// The component that a refusal concerns, 255 for none.
    pub component: u8,
    /// How the run ended, 0 to 3; 0 after a refusal.
    pub end: u8,
    /// The lowest late node; 255 with every other end and after a refusal.
    pub node: u8,
    /// The ticks that have passed; 0 after a refusal.
    pub tick: u32,
    /// The choices carried out; 0 after a refusal.
    pub used: u32,
    /// The observations written; 0 after a refusal.
    pub size: u32,
}

/// A component as it enters a location: what the edge choice is asked about.
/// Clocks and variables that the component does not have are not read.
#[repr(C)]
#[derive(Clone, Copy, Debug, Default, PartialEq, Eq)]
pub struct Entry {
    /// The number of the component.
    pub component: u8,
    /// The number of the location entered.
    pub location: u8,
    /// The clocks at the entry.
    pub clocks: [u32; 4],
    /// The variables at the entry.
    pub values: [i16; 4],
}

/// The answer for the edge choice: a verdict's two numbers, the edge taken and
/// its window, and how many edges were looked at.
#[repr(C)]
#[derive(Clone, Copy, Debug, PartialEq, Eq)]
pub(crate) struct EdgeChoiceNumbers {
    pub(crate) number: u8,
    pub(crate) component: u8,
    pub(crate) taken: bool,
    pub(crate) edge: u8,
    pub(crate) ready: u32,
    pub(crate) end: u32,
    pub(crate) looked: u32,
}

/// A passage of a schedule, as the library writes it.
#[repr(C)]
#[derive(Clone, Copy, Debug, Default, PartialEq, Eq)]
pub struct Passage {
    /// The number of its component.
    pub component: u8,
    /// The number of the edge taken.
    pub edge: u8,
    /// The number of the location.
    pub location: u8,
    /// The channel of its message, or 255 for none.
    pub message: u8,
    /// The tick of its entry.
    pub entry: u32,
    /// The tick from which it is ready.
    pub ready: u32,
    /// The tick of its end.
    pub end: u32,
}

extern "C" {
    fn timed_network_check(table: *const u8, length: usize) -> VerdictNumbers;
    fn timed_network_schedule(
        table: *const u8,
        length: usize,
        list: *mut u32,
        list_length: usize,
    ) -> CallNumbers;
    fn timed_network_translate(
        table: *const u8,
        length: usize,
        program: *mut u8,
        program_length: usize,
    ) -> CallNumbers;
    fn timed_network_timing_chart(
        table: *const u8,
        length: usize,
        chart: *mut u8,
        chart_length: usize,
    ) -> CallNumbers;
    fn timed_network_plan(
        probes: u32,
        slot: u32,
        guard: u32,
        period: u32,
        table: *mut u8,
        length: usize,
    ) -> CallNumbers;
    fn timed_network_edge_choice(
        table: *const u8,
        length: usize,
        entry: Entry,
    ) -> EdgeChoiceNumbers;
    fn timed_network_part(program: *const u8, program_length: usize, node: u8) -> PartNumbers;
    fn timed_network_run(
        table: *const u8,
        length: usize,
        choices: *const u8,
        choices_length: usize,
        observations: *mut u8,
        observations_length: usize,
    ) -> RunNumbers;
    fn timed_network_meetings(
        table: *const u8,
        length: usize,
        list: *mut u32,
        list_length: usize,
    ) -> MeetingsNumbers;
    fn timed_network_passages(
        table: *const u8,
        length: usize,
        list: *mut Passage,
        list_length: usize,
    ) -> CallNumbers;
}

/// Tries a table.
pub(crate) fn check(table: &[u8]) -> VerdictNumbers {
    // Pointer and length are those of one slice, which stays borrowed until
    // the call returns. The call reads inside it, writes nothing and keeps no
    // pointer; with length 0 it does not read the pointer.
    unsafe { timed_network_check(table.as_ptr(), table.len()) }
}

/// Writes the schedule of a table.
pub(crate) fn schedule(table: &[u8], list: &mut [u32]) -> CallNumbers {
    // Each pointer and its length are those of one slice, and both slices stay
    // borrowed until the call returns; the list, borrowed to be changed, does
    // not overlap the table. The call reads inside the one, writes inside the
    // other and keeps no pointer; with length 0 it does not use the pointer.
    unsafe { timed_network_schedule(table.as_ptr(), table.len(), list.as_mut_ptr(), list.len()) }
}

/// Lists the windows that met.
pub(crate) fn meetings(table: &[u8], list: &mut [u32]) -> MeetingsNumbers {
    // As for the schedule.
    unsafe { timed_network_meetings(table.as_ptr(), table.len(), list.as_mut_ptr(), list.len()) }
}

/// Writes the chart of a table's schedule.
pub(crate) fn timing_chart(table: &[u8], chart: &mut [u8]) -> CallNumbers {
    // As for the schedule: the chart, borrowed to be changed, does not overlap
    // the table.
    unsafe {
        timed_network_timing_chart(table.as_ptr(), table.len(), chart.as_mut_ptr(), chart.len())
    }
}

/// Writes the program bytes of a table.
pub(crate) fn translate(table: &[u8], program: &mut [u8]) -> CallNumbers {
    // As for the schedule: the program, borrowed to be changed, does not
    // overlap the table.
    unsafe {
        timed_network_translate(
            table.as_ptr(),
            table.len(),
            program.as_mut_ptr(),
            program.len(),
        )
    }
}

/// Writes the table of a plan: probes, slot, guard, period.
pub(crate) fn plan([probes, slot, guard, period]: [u32; 4], table: &mut [u8]) -> CallNumbers {
    // Pointer and length are those of one slice, which stays borrowed until
    // the call returns. The call writes inside it and keeps no pointer; with
    // length 0 it does not use the pointer.
    unsafe { timed_network_plan(probes, slot, guard, period, table.as_mut_ptr(), table.len()) }
}

/// Asks for the edge that a component takes at an entry.
pub(crate) fn edge_choice(table: &[u8], entry: Entry) -> EdgeChoiceNumbers {
    // As for the check. The entry is passed by value, in the header's layout;
    // the answer's `taken` is always a bool.
    unsafe { timed_network_edge_choice(table.as_ptr(), table.len(), entry) }
}

/// Finds the part of one node.
pub(crate) fn part(program: &[u8], node: u8) -> PartNumbers {
    // As for the check: the call reads inside the slice, writes nothing and
    // keeps no pointer.
    unsafe { timed_network_part(program.as_ptr(), program.len(), node) }
}

/// Runs a table under choices.
pub(crate) fn run(table: &[u8], choices: &[u8], observations: &mut [u8]) -> RunNumbers {
    // As for the schedule: the call reads inside the first two slices and
    // writes inside the third, which, borrowed to be changed, overlaps neither.
    unsafe {
        timed_network_run(
            table.as_ptr(),
            table.len(),
            choices.as_ptr(),
            choices.len(),
            observations.as_mut_ptr(),
            observations.len(),
        )
    }
}

/// Writes the schedule of a table as passages.
pub(crate) fn passages(table: &[u8], list: &mut [Passage]) -> CallNumbers {
    // As for `schedule`. A passage has the layout that the library gives it,
    // and any bytes of that size are one.
    unsafe { timed_network_passages(table.as_ptr(), table.len(), list.as_mut_ptr(), list.len()) }
}

#[cfg(test)]
mod tests;
