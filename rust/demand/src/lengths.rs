//! How many statements documents 01 and 02 write for the parts of a table.

use reference::table::*;

/// The lengths of the blocks of each component's locations.
pub(crate) fn blocks(table: &Table) -> Vec<Vec<u32>> {
    let components = table.components.iter();
    components
        .map(|c| block_lengths(c, table.version))
        .collect()
}

/// The statements in the block of each location: "per edge from it, 0A trial;
/// 0C high for the invariant; per clock bound 0B low, and 0C high unless
/// 65,535; per data bound 0D, 0E (low, high); 0F keep [...]. Last 10 take." Document
/// 02, wish 8: "A new statement 12, k = budget, stands before keep in version 3
/// programs only".
fn block_lengths(component: &Component, version: u8) -> Vec<u32> {
    let budget = u32::from(version == 3);
    let mut lengths = vec![1; component.locations.len()];
    for edge in &component.edges {
        let highs = edge.clock_bounds.iter().filter(|b| b.high.is_some());
        let bounds = edge.clock_bounds.len() + highs.count() + 2 * edge.data_bounds.len();
        lengths[usize::from(edge.source)] += 3 + bounds as u32 + budget;
    }
    lengths
}

/// "Internal: 01 set or 02 add (a = variable) each, then 03 done. Send: 04
/// [...]. Receive: 05 listen, [...] then pairs [...] skipped when run."
pub(crate) fn work_length(action: &Action) -> u32 {
    match action {
        Action::Internal(updates) => updates.len() as u32 + 1,
        Action::Send(_) | Action::Receive(_) => 1,
    }
}
