//! The budgets of a table's edges, which make it one of version 3.

use crate::random::Random;
use reference::schedule::{schedule, Passage};
use reference::table::*;

/// The same table in version 3, each budget 0, if it is short enough: what it says is
/// not changed by that, since all channels of version 1 are on one band.
pub fn none(table: &Table) -> Option<Table> {
    let mut table = table.clone();
    if !Table::has_bands(table.version) {
        table.bands = vec![0; table.channels.into()];
    }
    table.version = 3;
    for edge in table.components.iter_mut().flat_map(|own| &mut own.edges) {
        edge.budget = 0;
    }
    (write_table(&table).len() <= *LENGTHS.end()).then_some(table)
}

/// How long the windows are in which an edge is taken: the shortest and the longest.
pub type Lengths = Option<(u32, u32)>;

/// For each component and each of its edges the lengths of its windows in a schedule.
pub fn window_lengths(table: &Table, passages: &[Passage]) -> Vec<Vec<Lengths>> {
    let edges = |own: &Component| vec![None; own.edges.len()];
    let mut all: Vec<Vec<Lengths>> = table.components.iter().map(edges).collect();
    for passage in passages {
        let length = passage.end - passage.ready;
        let own = &mut all[usize::from(passage.component)][usize::from(passage.edge)];
        let (shortest, longest) = own.unwrap_or((length, length));
        *own = Some((shortest.min(length), longest.max(length)));
    }
    all
}

/// Gives each edge a budget, drawn by how long its windows are where it is taken.
pub fn draw(random: &mut Random, table: &mut Table, budget: impl Fn(&mut Random, Lengths) -> u32) {
    let passages = schedule(table).unwrap_or_default();
    let lengths = window_lengths(table, &passages);
    for (own, lengths) in table.components.iter_mut().zip(lengths) {
        for (edge, lengths) in own.edges.iter_mut().zip(lengths) {
            let most = u32::from(MAX_TICKS);
            edge.budget = budget(random, lengths).min(most) as u16;
        }
    }
}

/// A budget that changes nothing: an edge that is taken has time for it each time, one
/// that is not taken may have any.
pub fn suiting(random: &mut Random, lengths: Lengths) -> u32 {
    match lengths {
        Some((shortest, _)) => random.pick(&[0, 1, shortest - 1, shortest, shortest]),
        None => {
            let some = random.below(20) as u32;
            random.pick(&[0, 1, some, MAX_TICKS.into()])
        }
    }
}

/// A budget that changes nothing mostly, one about the length of a window sometimes.
pub fn mostly_suiting(random: &mut Random, lengths: Lengths) -> u32 {
    match random.once_in(8) {
        true => near(random, lengths),
        false => suiting(random, lengths),
    }
}

/// A budget about the length of a window: one less, just so, one more; sometimes none
/// or the greatest.
pub fn near(random: &mut Random, lengths: Lengths) -> u32 {
    let some = random.below(8) as u32;
    let Some((shortest, longest)) = lengths else {
        return random.pick(&[0, some, some, MAX_TICKS.into()]);
    };
    let length = random.pick(&[shortest, longest]);
    let about = random.pick(&[length - 1, length, length, length + 1]);
    match random.below(16) {
        0 => MAX_TICKS.into(),
        1..=4 => 0,
        _ => about,
    }
}
