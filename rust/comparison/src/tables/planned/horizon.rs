//! Horizons for tables: near a number of passages, or at the ticks at which
//! something happens.

use crate::random::Random;
use reference::schedule::{schedule, Passage};
use reference::table::{Table, MAX_TICKS};

/// The passages of a table; none if it is refused before all are opened.
pub fn passages(table: &Table) -> Vec<Passage> {
    schedule(table).unwrap_or_default()
}

/// Whether a table has few enough passages with this horizon.
fn has_room(table: &mut Table, horizon: u16) -> bool {
    table.horizon = horizon;
    match schedule(table) {
        Ok(_) => true,
        Err(refusal) => refusal.number != 7,
    }
}

/// The greatest horizon with which a table has at most 1,024 passages. With a
/// greater one it is refused with 7, unless this is 60,000.
pub fn greatest_horizon(table: &Table) -> u16 {
    let mut table = table.clone();
    let (mut least, mut most) = (1, MAX_TICKS);
    while least < most {
        let middle = least + (most - least).div_ceil(2);
        if has_room(&mut table, middle) {
            least = middle;
        } else {
            most = middle - 1;
        }
    }
    least
}

/// The table with a horizon that gives it so many passages or fewer, if each
/// component may have one.
pub fn shortened(mut table: Table, most: usize) -> Table {
    while table.horizon > 1 && schedule(&table).map_or(true, |list| list.len() > most) {
        table.horizon /= 2;
    }
    table
}

/// A horizon at which a passage of the table is entered, ready or at its end,
/// or one tick before or behind that.
pub fn near_passages(random: &mut Random, table: &Table) -> u16 {
    let passages = passages(table);
    if passages.is_empty() {
        return table.horizon;
    }
    let passage = &passages[random.below(passages.len())];
    let tick = random.pick(&[passage.entry, passage.ready, passage.end]);
    let near = tick + random.below(3) as u32;
    near.saturating_sub(1).clamp(1, table.horizon.into()) as u16
}
