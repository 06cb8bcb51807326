//! The chart in one sweep over the passages.

use crate::schedule::Passage;
use crate::table::{Kind, Table};

/// The bytes of a row: `C`, the digit, a colon, a space, 64 cells, a line
/// feed.
pub(crate) const ROW: usize = 69;
/// Where the cells start in a row.
const FIRST: usize = 4;
/// The cells of a row.
const CELLS: u32 = 64;

/// Writes the chart of a table's passages over the rows.
pub(crate) fn write(table: &Table, passages: &[Passage], rows: &mut [u8]) {
    let horizon = table.horizon;
    let empty = empty(horizon);
    for (digit, row) in (b'0'..).zip(rows.chunks_exact_mut(ROW)) {
        row.copy_from_slice(&empty);
        row[1] = digit;
    }
    let cell = |tick: u32| ((CELLS * tick + CELLS - 1) / horizon) as usize;
    for passage in passages.iter().filter(|passage| passage.ready < horizon) {
        let from = usize::from(passage.component) * ROW + FIRST;
        let last = passage.end.min(horizon - 1);
        let kind = table.components[usize::from(passage.component)]
            .edge(passage.edge)
            .kind;
        let letter = letter(kind);
        for shown in &mut rows[from + cell(passage.ready)..=from + cell(last)] {
            *shown = raised(*shown, letter);
        }
    }
}

/// A row without windows, the digit left open.
fn empty(horizon: u32) -> [u8; ROW] {
    let mut row = [b' '; ROW];
    row[0] = b'C';
    row[2] = b':';
    row[ROW - 1] = b'\n';
    let from = |cell: u32| cell * horizon / CELLS;
    for (cell, shown) in (0..CELLS).zip(&mut row[FIRST..ROW - 1]) {
        if from(cell) < from(cell + 1) {
            *shown = b'.';
        }
    }
    row
}

fn letter(kind: Kind) -> u8 {
    match kind {
        Kind::Internal => b'W',
        Kind::Send => b'S',
        Kind::Receive => b'R',
    }
}

/// What a cell shows with one window more: a space stays, `S` goes before
/// `R`, `R` before `W`.
fn raised(shown: u8, letter: u8) -> u8 {
    match (shown, letter) {
        (b' ' | b'S', _) => shown,
        (b'R', b'W') => shown,
        _ => letter,
    }
}
