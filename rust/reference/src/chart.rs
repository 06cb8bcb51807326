//! The schedule as a chart: wish 1 of document 02, "A page for the cellar
//! wall", written from its sentences tick by tick.

use crate::schedule::Passage;
use crate::table::{Action, Table};
use std::ops::Range;

/// "Each component gets one row of 69 bytes".
pub const ROW: usize = 69;
/// "64 cells".
const CELLS: u32 = 64;
/// What a cell may show, the strongest last: no tick, no window, then `W`
/// for internal, `R` for receive, `S` for send.
const SHOWN: [u8; 5] = *b" .WRS";

/// "Each component gets one row of 69 bytes: `C`, its digit, a colon, a
/// space, 64 cells and a line feed."
pub fn chart(table: &Table, passages: &[Passage]) -> Vec<u8> {
    let mut bytes = Vec::new();
    for component in 0..table.components.len() as u8 {
        let ticks = ticks(table, passages, component);
        bytes.extend([b'C', b'0' + component, b':', b' ']);
        bytes.extend((0..CELLS).map(|cell| shown(&ticks, covered(table, cell))));
        bytes.push(b'\n');
    }
    bytes
}

/// For each tick below the horizon the place in [`SHOWN`] of what the
/// component's windows show there, the strongest of several.
fn ticks(table: &Table, passages: &[Passage], component: u8) -> Vec<usize> {
    let mut ticks = vec![1; table.horizon.into()];
    let own = passages.iter().filter(|own| own.component == component);
    for passage in own {
        let place = letter(table, passage);
        for tick in passage.ready..=passage.end {
            if let Some(shown) = ticks.get_mut(tick as usize) {
                *shown = place.max(*shown);
            }
        }
    }
    ticks
}

/// "Cell i covers the ticks from floor(i × H / 64) up to, but not including,
/// floor((i + 1) × H / 64)."
fn covered(table: &Table, cell: u32) -> Range<usize> {
    let from = |cell: u32| (cell * u32::from(table.horizon) / CELLS) as usize;
    from(cell)..from(cell + 1)
}

/// "It shows `S` if a send window has a tick there, else `R` for receive,
/// else `W` for internal, else a dot. A cell without ticks is a space."
fn shown(ticks: &[usize], covered: Range<usize>) -> u8 {
    let mut shown = 0;
    for tick in covered {
        shown = shown.max(ticks[tick]);
    }
    SHOWN[shown]
}

/// The place in [`SHOWN`] of a window's letter.
fn letter(table: &Table, passage: &Passage) -> usize {
    match passage.edge_in(table).action {
        Action::Internal(_) => 2,
        Action::Receive(_) => 3,
        Action::Send(_) => 4,
    }
}
